//! `osek asm` and `osek dump`: round trips on drawn files, and what is said of a text that is wrong.

use osek_tests::cases;

use super::common::*;

#[test]
fn the_document_s_text_is_written_to_the_document_s_bytes() {
    let folder = Folder::new().with("both.txt", DOCUMENT_TEXT);
    folder.osek(&["asm", "both.txt", "-o", "out"]).prints("", 0);
    assert_eq!(folder.read("out.config.bin"), DOCUMENT_CONFIG);
    assert_eq!(folder.read("out.trace.bin"), DOCUMENT_TRACE);
    let (config, trace) = DOCUMENT_TEXT.split_once("trace\n").expect("it has both parts");
    let folder = folder.with("config.txt", config).with("trace.txt", trace);
    folder.osek(&["asm", "config.txt", "-o", "c"]).prints("", 0);
    folder.osek(&["asm", "trace.txt", "-o", "t", "--config", "config.txt"]).prints("", 0);
    assert_eq!((folder.read("c"), folder.read("t")), (DOCUMENT_CONFIG.to_vec(), DOCUMENT_TRACE.to_vec()));
    folder.osek(&["asm", "trace.txt", "-o", "t"]).fails(
        4,
        "trace.txt:1:7: no table is named `beacon`: the configuration names none\n  1 | start beacon 1\n    |       ^^^^^^",
    );
    let said = folder.osek(&["asm", "both.txt", "-o", "-"]);
    assert_eq!(said.code, Some(2));
}

#[test]
fn drawn_files_come_back_the_same() {
    let folder = Folder::new();
    for number in 0..60 {
        let case = cases::case(77, number);
        for (part, bytes) in [("config", &case.config), ("trace", &case.trace)] {
            folder.write("in.bin", bytes);
            folder.write("out.txt", folder.osek(&["dump", "in.bin", "--as", part]).done());
            folder.osek(&["asm", "out.txt", "-o", "out.bin"]).prints("", 0);
            assert_eq!(folder.read("out.bin"), *bytes, "case {number}, {part}");
            let again = folder.osek(&["dump", "out.bin", "--as", part]).done();
            assert_eq!(again, folder.text("out.txt"), "case {number}, {part}");
            // A dump of the text shows the same again, with its own names.
            assert_eq!(folder.osek(&["dump", "out.txt"]).done(), again, "case {number}, {part}");
        }
    }
}

#[test]
fn a_dump_shows_the_offset_and_the_meaning_of_each_number() {
    let folder = Folder::document().with("both.txt", DOCUMENT_TEXT);
    folder.osek(&["dump", "config.bin"]).prints(
        "\
# configuration, 20 bytes
version 1                             #  0  01  version 1
                                      #  1  03  body count 3
task task0 priority 2 autostart       #  2  00  body 0: kind 0, task
                                      #  3  02  priority 2
                                      #  4  01  autostart 1
task task1 priority 5                 #  5  00  body 1: kind 0, task
                                      #  6  05  priority 5
                                      #  7  00  autostart 0
isr isr2 priority 9                   #  8  01  body 2: kind 1, ISR
                                      #  9  09  priority 9
                                      # 10  00  autostart 0
                                      # 11  01  resource count 1
resource resource0 users task0 task1  # 12  03  resource 0: users 0b11
                                      # 13  01  table count 1
table table0 period 4                 # 14  04  table 0: period 4
                                      # 15  02  entry count 2
  at 0 task1                          # 16  00  entry 0: offset 0
                                      # 17  01  task 1 task1
  at 2 task0                          # 18  02  entry 1: offset 2
                                      # 19  00  task 0 task0
",
        0,
    );
    folder.write("trace.bin", [8, 0, 0x80, 1, 6, 6, 7, 2, 4, 9]);
    folder.osek(&["dump", "trace.bin", "--config", "both.txt"]).prints(
        "\
# trace, 10 bytes
trace
start beacon 128  # 0  08     event 0: Start
                  # 1  00     table 0 beacon
                  # 2  80 01  delay 128
tick 2            # 4  06     events 1 to 2: Tick
line door         # 6  07     event 3: Line
                  # 7  02     body 2 door
get 9             # 8  04     event 4: Get
                  # 9  09     resource 9
",
        0,
    );
}

#[test]
fn extended_tasks_and_masks_have_their_words() {
    let text = "version 2\nextended radio priority 3 autostart\nisr packet priority 9\n\
                trace\nwait 0x81\nset radio 1\nclear 4294967295\n";
    let folder = Folder::new().with("radio.txt", text);
    folder.osek(&["asm", "radio.txt", "-o", "radio"]).prints("", 0);
    assert_eq!(folder.read("radio.config.bin"), [2, 2, 2, 3, 1, 1, 9, 0, 0, 0]);
    assert_eq!(folder.read("radio.trace.bin"), [10, 0x81, 1, 11, 0, 1, 12, 0xff, 0xff, 0xff, 0xff, 0x0f]);
    folder.osek(&["dump", "radio.config.bin"]).prints(
        "\
# configuration, 10 bytes
version 2                                # 0  02  version 2, lost lines are counted
                                         # 1  02  body count 2
extended extended0 priority 3 autostart  # 2  02  body 0: kind 2, extended task
                                         # 3  03  priority 3
                                         # 4  01  autostart 1
isr isr1 priority 9                      # 5  01  body 1: kind 1, ISR
                                         # 6  09  priority 9
                                         # 7  00  autostart 0
                                         # 8  00  resource count 0
                                         # 9  00  table count 0
",
        0,
    );
    folder.osek(&["dump", "radio.trace.bin", "--config", "radio.txt"]).prints(
        "\
# trace, 12 bytes
trace
wait 0x81         # 0  0A              event 0: Wait
                  # 1  81 01           mask 0x81
set radio 0x1     # 3  0B              event 1: Set
                  # 4  00              body 0 radio
                  # 5  01              mask 0x1
clear 0xffffffff  # 6  0C              event 2: Clear
                  # 7  FF FF FF FF 0F  mask 0xffffffff
",
        0,
    );
}

#[test]
fn a_damaged_file_is_dumped_as_far_as_it_goes_and_then_as_bytes() {
    let folder = Folder::new().with("cut.bin", [1, 1, 0, 0x80]).with("odd.bin", [6, 1, 0x80, 0, 6]);
    folder.osek(&["dump", "cut.bin", "--as", "config"]).prints(
        "\
# configuration, 4 bytes
number 1  # 0  01  version 1
number 1  # 1  01  body count 1
number 0  # 2  00  body 0: kind 0, task
bytes 80  # 3      the priority of body 0: the number at 3 is cut off
",
        0,
    );
    folder.osek(&["dump", "odd.bin"]).prints(
        "\
# trace, 5 bytes
trace
tick               # 0  06  event 0: Tick
bytes 01 80 00 06  # 1      event 1 can't be read: the number at 2 is too large or not in its shortest form
",
        0,
    );
    // Left over bytes follow the objects.
    folder.write("more.bin", [&DOCUMENT_CONFIG[..], &[7, 7]].concat());
    let dump = folder.osek(&["dump", "more.bin"]).done();
    assert!(
        dump.ends_with("bytes 07 07                           # 20      left over after the configuration\n"),
        "{dump}"
    );
}

/// Every text is wrong in one place, and the message says where and what was expected.
#[test]
fn a_wrong_text_is_refused_at_its_line_and_column() {
    let wrong = [
        ("task a priority 1", "1:1: expected `version`, `number` or `bytes` at the head of a configuration, found `task`"),
        ("version", "1:8: expected the version's number, found the end of the line"),
        ("version one", "1:9: expected the version's number, found `one`"),
        ("version 1 2", "1:11: expected the end of the line, found `2`"),
        (
            "version 1\nversion 1",
            "2:1: expected `task`, `isr`, `extended`, `timed`, `body`, `resource`, `table`, `at`, `number`, `bytes` or `trace`, found `version`",
        ),
        ("version 1\ntask", "2:5: expected the body's name, found the end of the line"),
        ("version 1\ntask 7up priority 3", "2:6: expected the body's name, found `7up`"),
        (
            "version 1\ntask priority 3",
            "2:6: expected the body's name and no word of the text form, found `priority`",
        ),
        ("version 1\ntask a priorty 3", "2:8: expected `priority`, found `priorty`"),
        ("version 1\ntask a priority high", "2:17: expected the priority, a number, found `high`"),
        (
            "version 1\ntask a priority 4294967296",
            "2:17: expected the priority, a number: decimal digits or 0x and hex digits, up to 4,294,967,295, found \
             `4294967296`",
        ),
        ("version 1\ntask a priority 1 autostrat", "2:19: expected `autostart` or the end of the line, found `autostrat`"),
        ("version 1\ntask a priority 1 autostart x", "2:29: expected a number or nothing, found `x`"),
        ("version 3\ntask a priority 1 x", "2:19: expected `autostart`, `deadline` or the end of the line, found `x`"),
        ("version 3\ntask a priority 1 autostart 1 x", "2:31: expected `deadline` or the end of the line, found `x`"),
        ("version 3\ntask a priority 1 deadline", "2:27: expected the deadline, a number, found the end of the line"),
        ("version 3\ntask a priority 1 deadline soon", "2:28: expected the deadline, a number, found `soon`"),
        ("version 3\ntask a priority 1 deadline 5 autostart", "2:30: expected the end of the line, found `autostart`"),
        ("version 1\ntask a priority 1 deadline 5", "2:19: expected the end of the line: a `deadline` is for version 3"),
        (
            "version 2\ntask a priority 1 autostart deadline 0",
            "2:29: expected the end of the line: a `deadline` is for version 3",
        ),
        (
            "version 3\ntask deadline priority 1",
            "2:6: expected the body's name and no word of the text form, found `deadline`",
        ),
        ("version 1\ntask a priority 1\nisr  a priority 2", "3:6: expected a new name: line 2 has given this one"),
        ("version 1\nbody a priority 1", "2:8: expected `kind`, found `priority`"),
        ("version 1\nresource r", "2:11: expected `users` or `mask`, found the end of the line"),
        ("version 1\nresource r users", "2:17: expected a body: its name or its number, found the end of the line"),
        (
            "version 1\ntask a priority 1\nresource r users a b",
            "3:20: no body is named `b`: the configuration has a",
        ),
        ("version 1\nresource r users 32", "2:18: expected a body with a bit in the mask, 0 to 31, found body 32"),
        ("version 1\ntable t", "2:8: expected `period`, found the end of the line"),
        ("version 1\nat 0 1", "2:1: expected `table` before the first `at`, found `at`"),
        ("version 1\ntable t period 3\nat zero 1", "3:4: expected the offset, a number, found `zero`"),
        ("version 1\ntable t period 3\nat 0", "3:5: expected a task: its name or its number, found the end of the line"),
        ("bytes 1", "1:7: expected a byte of two hex digits, found `1`"),
        ("bytes", "1:6: expected a byte of two hex digits, found the end of the line"),
        ("bytes 0g", "1:7: expected a byte of two hex digits, found `0g`"),
        ("number x", "1:8: expected a number, found `x`"),
        ("bytes 01\nversion 1", "2:1: expected `number` or `bytes` after the first of them, found `version`"),
        ("trace\nactivate", "2:9: expected a body: its name or its number, found the end of the line"),
        ("trace\nstart 0", "2:8: expected the delay, a number, found the end of the line"),
        ("trace\nwait", "2:5: expected the mask, a number, found the end of the line"),
        ("trace\nset 0", "2:6: expected the mask, a number, found the end of the line"),
        ("trace\nclear x", "2:7: expected the mask, a number, found `x`"),
        ("trace\nfinish 1", "2:8: expected the end of the line, found `1`"),
        ("trace\ntick 0", "2:6: expected how often, 1 to 65535, found `0`"),
        ("trace\ntick 65536", "2:6: expected how often, 1 to 65535, found `65536`"),
        (
            "trace\nsleep 1",
            "2:1: expected `activate`, `finish`, `chain`, `get`, `release`, `tick`, `line`, `start`, `stop`, `wait`, `set`, `clear`, `number` or \
             `bytes`, found `sleep`",
        ),
        (
            "trace\ntrace",
            "2:1: expected `activate`, `finish`, `chain`, `get`, `release`, `tick`, `line`, `start`, `stop`, `wait`, `set`, `clear`, `number` or \
             `bytes`, found `trace`",
        ),
    ];
    let folder = Folder::new();
    for (text, message) in wrong {
        folder.write("wrong.txt", text);
        let said = folder.osek(&["asm", "wrong.txt", "-o", "out"]);
        let first = said.err.lines().next().unwrap_or_default();
        assert_eq!(first, format!("osek: wrong.txt:{message}"), "{text}");
        assert_eq!((said.code, said.out.as_str()), (Some(4), ""), "{text}");
        // The line is shown, with a mark at the column.
        let column: usize = message.split(':').nth(1).and_then(|column| column.parse().ok()).expect("it has a column");
        let mark = said.err.lines().nth(2).expect("the place is marked");
        assert_eq!(mark.find('^'), Some("  1 | ".len() + column - 1), "{}", said.err);
        assert!(!folder.0.join("out").exists(), "{text}");
    }
}

#[test]
fn time_triggered_tasks_have_their_word() {
    let text =
        "version 1\ntask low priority 1 autostart\ntimed dispatch priority 200\ntable round period 9\nat 3 dispatch\n";
    let folder = Folder::new().with("round.txt", text);
    folder.osek(&["asm", "round.txt", "-o", "round.bin"]).prints("", 0);
    assert_eq!(folder.read("round.bin"), [1, 2, 0, 1, 1, 3, 0xc8, 1, 0, 0, 1, 9, 1, 3, 1]);
    folder.osek(&["dump", "round.bin"]).prints(
        "\
# configuration, 15 bytes
version 1                        #  0  01     version 1
                                 #  1  02     body count 2
task task0 priority 1 autostart  #  2  00     body 0: kind 0, task
                                 #  3  01     priority 1
                                 #  4  01     autostart 1
timed timed1 priority 200        #  5  03     body 1: kind 3, time-triggered task
                                 #  6  C8 01  priority 200
                                 #  8  00     autostart 0
                                 #  9  00     resource count 0
                                 # 10  01     table count 1
table table0 period 9            # 11  09     table 0: period 9
                                 # 12  01     entry count 1
  at 3 timed1                    # 13  03     entry 0: offset 3
                                 # 14  01     task 1 timed1
",
        0,
    );
}

#[test]
fn deadlines_have_their_word() {
    let text = "version 3\ntask low priority 1 autostart deadline 300\nextended radio priority 2 deadline 1\n\
                timed sample priority 3 autostart 0 deadline 65535\nisr door priority 9\ntask idle priority 4 deadline 0\n";
    let folder = Folder::new().with("late.txt", text);
    folder.osek(&["asm", "late.txt", "-o", "late.bin"]).prints("", 0);
    let bodies = [&[0, 1, 1, 0xac, 2][..], &[2, 2, 0, 1], &[3, 3, 0, 0xff, 0xff, 3], &[1, 9, 0, 0], &[0, 4, 0, 0]];
    assert_eq!(folder.read("late.bin"), [&[3, 5][..], &bodies.concat(), &[0, 0]].concat());
    folder.osek(&["dump", "late.bin"]).prints(
        "\
# configuration, 27 bytes
version 3                                     #  0  03        version 3, lost lines are counted, tasks have deadlines
                                              #  1  05        body count 5
task task0 priority 1 autostart deadline 300  #  2  00        body 0: kind 0, task
                                              #  3  01        priority 1
                                              #  4  01        autostart 1
                                              #  5  AC 02     deadline 300
extended extended1 priority 2 deadline 1      #  7  02        body 1: kind 2, extended task
                                              #  8  02        priority 2
                                              #  9  00        autostart 0
                                              # 10  01        deadline 1
timed timed2 priority 3 deadline 65535        # 11  03        body 2: kind 3, time-triggered task
                                              # 12  03        priority 3
                                              # 13  00        autostart 0
                                              # 14  FF FF 03  deadline 65535
isr isr3 priority 9                           # 17  01        body 3: kind 1, ISR
                                              # 18  09        priority 9
                                              # 19  00        autostart 0
                                              # 20  00        deadline 0, none
task task4 priority 4                         # 21  00        body 4: kind 0, task
                                              # 22  04        priority 4
                                              # 23  00        autostart 0
                                              # 24  00        deadline 0, none
                                              # 25  00        resource count 0
                                              # 26  00        table count 0
",
        0,
    );
    // Out of range, on an ISR and beside an autostart that is none: written as they stand.
    folder.write("odd.txt", "version 3\nisr a priority 1 autostart 7 deadline 70000\n");
    folder.osek(&["asm", "odd.txt", "-o", "odd.bin"]).prints("", 0);
    assert_eq!(folder.read("odd.bin"), [3, 1, 1, 1, 7, 0xf0, 0xa2, 4, 0, 0]);
    folder.write("again.txt", folder.osek(&["dump", "odd.bin"]).done());
    folder.osek(&["asm", "again.txt", "-o", "again.bin"]).prints("", 0);
    assert_eq!(folder.read("again.bin"), folder.read("odd.bin"));
}

#[test]
fn values_out_of_range_are_written_and_left_to_the_library() {
    let folder = Folder::new().with(
        "odd.txt",
        "version 7\nbody a kind 5 priority 300 autostart 2\nisr b priority 0 autostart\nresource r mask 0x80000001\n\
         table t period 70000\nat 70000 9\nnumber 4294967295\nbytes ff 00",
    );
    folder.osek(&["asm", "odd.txt", "-o", "odd.bin"]).prints("", 0);
    let bytes = [
        &[7, 2, 5, 0xac, 2, 2, 1, 0, 1, 1, 0x81, 0x80, 0x80, 0x80, 8, 1][..],
        &[0xf0, 0xa2, 4, 1, 0xf0, 0xa2, 4, 9, 0xff, 0xff, 0xff, 0xff, 0x0f, 0xff, 0],
    ];
    assert_eq!(folder.read("odd.bin"), bytes.concat());
    folder.write("again.txt", folder.osek(&["dump", "odd.txt"]).done());
    folder.osek(&["asm", "again.txt", "-o", "again.bin"]).prints("", 0);
    assert_eq!(folder.read("again.bin"), folder.read("odd.bin"));
}

#[test]
fn a_text_of_many_ticks_has_an_end() {
    let folder = Folder::new().with("long.txt", "trace\n".to_string() + &"tick 65535\n".repeat(300));
    let said = folder.osek(&["asm", "long.txt", "-o", "out"]);
    assert_eq!(said.err.lines().next(), Some("osek: long.txt:258:1: the text gives more than 16777216 bytes"));
    assert_eq!(said.code, Some(4));
}

#[test]
fn line_ends_comments_and_a_byte_order_mark_are_no_matter() {
    let folder = Folder::new().with("both.txt", format!("\u{feff}# für\r\n{}", DOCUMENT_TEXT.replace('\n', "  #\r\n")));
    folder.osek(&["run", "both.txt"]).prints(DOCUMENT_LISTING, 0);
}

/// python/osek/text.py by this tool.
#[test]
fn python_reads_and_writes_texts_by_the_tool() {
    let root = std::path::Path::new(env!("CARGO_MANIFEST_DIR")).join("..");
    let output = std::process::Command::new("python3")
        .args(["-B", "-m", "unittest", "test_text"])
        .current_dir(root.join("python"))
        .env("OSEK_TOOL", OSEK)
        .env("OSEK_LIBRARY", root.join("build/libosek.so"))
        .output()
        .expect("python3 runs");
    let said = String::from_utf8_lossy(&output.stderr);
    assert!(output.status.success() && said.ends_with("\nOK\n"), "{said}");
}
