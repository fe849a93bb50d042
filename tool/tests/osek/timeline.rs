//! `osek timeline`: the pictures agree with the listing, as programs that others wrote read them.

use std::path::Path;
use std::process::Command;

use osek_tests::cases;
use osek_tests::fast;
use osek_tests::listing::listing;

use super::common::*;

/// Text and drawn runs that are accepted, in turn as the files `config.bin` and `trace.bin`, with `listing`.
fn accepted(seed: u64, count: usize, most: usize) -> Vec<(Vec<u8>, Vec<u8>)> {
    let drawn = (0..).map(|number| cases::case(seed, number));
    let whole = drawn.filter(|case| {
        fast::read_config(&case.config).is_ok() && fast::count_events(&case.trace).is_ok() && case.trace.len() < most
    });
    let mut all = vec![(DOCUMENT_CONFIG.to_vec(), DOCUMENT_TRACE.to_vec()), (DOCUMENT_CONFIG.to_vec(), vec![])];
    all.extend(whole.take(count).map(|case| (case.config, case.trace)));
    all
}

fn write(folder: &Folder, config: &[u8], trace: &[u8]) {
    folder.write("config.bin", config);
    folder.write("trace.bin", trace);
    let mut out = vec![0; fast::OUTPUT_MAX];
    let result = osek_tests::subject::run(config, trace, &mut out);
    folder.write("listing", listing(config, trace, result, &out));
}

/// `vcd2fst` and `fst2vcd`, installed where they are missing; false where they can't be.
fn gtkwave() -> bool {
    let script = Path::new(env!("CARGO_MANIFEST_DIR")).join("tests/get-gtkwave");
    let there = Command::new(script).status().is_ok_and(|status| status.success());
    if !there {
        println!("skipped: vcd2fst of gtkwave is not here and can't be installed");
    }
    there
}

#[test]
fn a_dump_read_back_by_gtkwave_s_reader_agrees_with_the_listing() {
    if !gtkwave() {
        return;
    }
    let folder = Folder::new();
    for (config, trace) in accepted(41, 12, 900) {
        write(&folder, &config, &trace);
        folder.osek(&["timeline", "config.bin", "trace.bin", "--vcd", "run.vcd"]).prints("", 0);
        let read = Command::new("vcd2fst").args(["run.vcd", "run.fst"]).current_dir(&folder.0).output();
        let read = read.expect("vcd2fst runs");
        assert!(read.status.success(), "{}", String::from_utf8_lossy(&read.stderr));
        let back = Command::new("fst2vcd").args(["run.fst"]).current_dir(&folder.0).output().expect("fst2vcd runs");
        assert!(back.status.success());
        folder.write("back.vcd", back.stdout);
        python(&folder, "check_vcd.py", &["back.vcd", "listing"]);
        python(&folder, "check_vcd.py", &["run.vcd", "listing"]);
    }
}

#[test]
fn trace_events_agree_with_the_listing() {
    let folder = Folder::new();
    for (config, trace) in accepted(42, 20, 900) {
        write(&folder, &config, &trace);
        folder.osek(&["timeline", "config.bin", "trace.bin", "--json", "run.json"]).prints("", 0);
        python(&folder, "check_trace_events.py", &["run.json", "listing"]);
    }
}

#[test]
fn a_picture_is_xml_and_has_every_body_and_event() {
    let folder = Folder::new();
    for (config, trace) in accepted(43, 15, 3_000) {
        write(&folder, &config, &trace);
        folder.osek(&["timeline", "config.bin", "trace.bin", "--svg", "run.svg"]).prints("", 0);
        python(&folder, "check_svg.py", &["run.svg", "listing"]);
    }
    // Its title is the name of the file.
    let folder = folder.with("a&<b>\".txt", DOCUMENT_TEXT).with("listing", DOCUMENT_LISTING);
    folder.osek(&["timeline", "a&<b>\".txt", "--svg", "run.svg"]).prints("", 0);
    python(&folder, "check_svg.py", &["run.svg", "listing"]);
}

#[test]
fn losses_show_at_the_tick_at_which_they_happen() {
    let folder = Folder::new().with("logger.txt", LOGGER);
    folder.osek(&["timeline", "logger.txt", "--json", "run.json"]).prints("", 0);
    let json = folder.text("run.json");
    let losses: Vec<&str> = json.lines().filter(|line| line.contains("lost activation")).collect();
    // The table starts with delay 3 and period 30: the radio is due at ticks 3 and 33, and still runs at 33.
    assert_eq!(losses.len(), 1, "{losses:?}");
    assert!(
        losses[0].contains("\"ts\": 33000.000") && losses[0].contains("\"tick\": 33, \"count\": 1"),
        "{}",
        losses[0]
    );
    // A prefix of the trace says the same: no loss before that tick.
    let (config, trace) = LOGGER.split_once("\ntrace\n").expect("it has both parts");
    folder.write("config.txt", config);
    for (ticks, lost) in [(32, false), (33, true)] {
        let mut left = ticks;
        let mut short = String::new();
        for line in trace.lines() {
            let words: Vec<&str> = line.split('#').next().unwrap_or_default().split_whitespace().collect();
            match words[..] {
                ["tick", count] => {
                    let count: u32 = count.parse().expect("a count");
                    let now = count.min(left);
                    left -= now;
                    if now > 0 {
                        short.push_str(&format!("tick {now}\n"));
                    }
                }
                _ if left > 0 => short.push_str(&format!("{}\n", words.join(" "))),
                _ => {}
            }
        }
        folder.write("short.txt", short);
        let out = folder.osek(&["run", "config.txt", "short.txt", "--names"]).done();
        assert_eq!(out.contains("lost radio 1"), lost, "{out}");
    }
}

#[test]
fn a_task_that_waits_shows_so() {
    let text =
        "version 1\nextended radio priority 5 autostart\nisr packet priority 9\ntrace\nwait 0x1\ntick\nline packet\n\
                set radio 0x1\nfinish\n";
    let folder = Folder::new().with("radio.txt", text);
    let json = folder.osek(&["timeline", "radio.txt", "--json", "-"]).done();
    let states = |body: u32| -> Vec<String> {
        let of_body = format!("\"pid\": 2, \"tid\": {body}, \"cat\": \"state\"");
        let lines = json.lines().filter(|line| line.contains(&of_body));
        lines.map(|line| line.split('"').nth(7).unwrap_or_default().to_string()).collect()
    };
    // It runs from the fresh start on, waits until the ISR sets the bit, and is preempted until the ISR ends.
    assert_eq!(states(0), ["running", "waiting", "preempted", "running"]);
    assert_eq!(states(1), ["running"]);
    let picture = folder.osek(&["timeline", "radio.txt", "--svg", "-"]).done();
    // The body's bar, the one in the lane of its bits, and the legend's.
    assert_eq!(picture.matches("class=\"waiting\"").count(), 3, "{picture}");
    assert!(picture.contains(">radio bits<") && picture.matches("class=\"bits\"").count() == 1, "{picture}");
    let dump = folder.osek(&["timeline", "radio.txt", "--vcd", "-"]).done();
    for signal in ["$var wire 32 ' radio_bits [31:0]", "radio_waits_for [31:0]"] {
        assert!(dump.contains(&signal[signal.len() - 18..]), "{signal}: {dump}");
    }
}

#[test]
fn time_triggered_tasks_stand_on_top_at_their_level() {
    // The later one preempts the first, which preempts a task of a greater priority number.
    let text = "version 1\ntask low priority 9 autostart\ntimed one priority 2\ntimed two priority 1\n\
                table round period 20\nat 0 one\nat 1 two\ntrace\nstart round 1\ntick 3\nfinish\nfinish\n";
    let folder = Folder::new().with("round.txt", text);
    let json = folder.osek(&["timeline", "round.txt", "--json", "-"]).done();
    let called: Vec<&str> = json.lines().filter(|line| line.contains("priority ")).collect();
    let shown = ["one (time-triggered, priority 2)", "two (time-triggered, priority 1)", "low (priority 9)"];
    assert!(called.len() == 3 && called.iter().zip(shown).all(|(line, name)| line.contains(name)), "{called:?}");
    let states = |body: u32| -> Vec<String> {
        let of_body = format!("\"pid\": 2, \"tid\": {body}, \"cat\": \"state\"");
        let lines = json.lines().filter(|line| line.contains(&of_body));
        lines.map(|line| line.split('"').nth(7).unwrap_or_default().to_string()).collect()
    };
    assert_eq!(states(0), ["running", "preempted", "running"]);
    assert_eq!(states(1), ["running", "preempted", "running"]);
    assert_eq!(states(2), ["running"]);
    let picture = folder.osek(&["timeline", "round.txt", "--svg", "-"]).done();
    let rows: Vec<usize> = ["one", "two", "low"].iter().filter_map(|name| picture.find(&format!(">{name}<"))).collect();
    assert!(rows.len() == 3 && rows.is_sorted(), "{picture}");
    assert!(picture.contains(">201<"), "{picture}");
}

#[test]
fn missed_deadlines_are_marked() {
    let folder = Folder::new().with("logger.txt", DEADLINES);
    let json = folder.osek(&["timeline", "logger.txt", "--json", "-"]).done();
    let missed: Vec<&str> = json.lines().filter(|line| line.contains("\"cat\": \"miss\"")).collect();
    let at = |line: &str, body: u32, tick: u32, deadline: u32| {
        line.contains(&format!("\"deadline missed\", \"pid\": 2, \"tid\": {body}"))
            && line.contains(&format!("\"tick\": {tick}, \"deadline\": {deadline}"))
    };
    assert!(missed.len() == 2 && at(missed[0], 2, 9, 6) && at(missed[1], 1, 23, 20), "{missed:?}");
    let picture = folder.osek(&["timeline", "logger.txt", "--svg", "-"]).done();
    // Two marks, and the legend's; the tick of a miss has a column of its own.
    assert_eq!(picture.matches("class=\"miss\"").count(), 3, "{picture}");
    assert!(picture.contains(">deadline missed<"), "{picture}");
    assert!(picture.contains(">5 ticks<") && picture.contains("event 13 Tick, tick 9: "), "{picture}");
    let dump = folder.osek(&["timeline", "logger.txt", "--vcd", "-"]).done();
    let counts = |name: &str| -> Vec<String> {
        let id =
            dump.lines().find_map(|line| line.strip_suffix(&format!(" {name} [15:0] $end"))?.split(' ').next_back());
        let value = format!(" {}", id.expect("it is a signal"));
        dump.lines().filter_map(|line| Some(line.strip_prefix('b')?.strip_suffix(&value)?.to_string())).collect()
    };
    assert_eq!((counts("record_missed"), counts("sensor_missed")), (vec!["0".into(), "1".into()], vec!["0".into()]));
    assert!(!dump.contains("door_missed"), "{dump}");
    let page = folder.osek(&["timeline", "logger.txt", "--html", "-"]).done();
    // By row: door, record, sensor, radio, main.
    let marks: Vec<&str> = page.split("\"missed\": ").skip(1).filter_map(|rest| rest.split(", \"why").next()).collect();
    assert_eq!(marks.iter().filter(|mark| **mark != "[]").collect::<Vec<_>>(), [&"[1]", &"[3]"]);
    // Without deadlines nothing is said of them.
    let folder = Folder::new().with("logger.txt", LOGGER);
    let picture = folder.osek(&["timeline", "logger.txt", "--svg", "-"]).done();
    assert!(!picture.contains("deadline") && !picture.contains("class=\"miss\""), "{picture}");
}

#[test]
fn a_lost_line_shows_where_it_is_counted() {
    let folder = Folder::new();
    for (version, expected) in [(1, 0), (2, 2), (3, 2)] {
        let text =
            format!("version {version}\nisr door priority 9\ntrace\nline door\nline door\nline door\nline door\n");
        folder.write("bounces.txt", text);
        let json = folder.osek(&["timeline", "bounces.txt", "--json", "-"]).done();
        let lost: Vec<&str> = json.lines().filter(|line| line.contains("\"lost line\"")).collect();
        assert_eq!(lost.len(), expected, "{lost:?}");
        assert!(lost.iter().zip(1..).all(|(line, count)| line.contains(&format!("\"count\": {count}"))), "{lost:?}");
    }
}

#[test]
fn a_timeline_needs_a_run_that_is_accepted_and_somewhere_to_go() {
    let folder = Folder::document();
    folder
        .osek(&["timeline", "config.bin", "trace.bin"])
        .fails(2, "timeline: --html, --svg, --vcd or --json is missing; see osek timeline --help");
    folder
        .osek(&["timeline", "config.bin", "trace.bin", "--svg", "-", "--vcd", "-"])
        .fails(2, "timeline: only one output can be standard output; see osek timeline --help");
    folder
        .osek(&["timeline", "config.bin", "trace.bin", "--svg", "no/where.svg"])
        .fails(3, "no/where.svg could not be written: No such file or directory");
    assert!(folder.osek(&["timeline", "config.bin", "trace.bin", "--svg", "-"]).done().starts_with("<svg "));
    folder.write("config.bin", [1]);
    let said = folder.osek(&["timeline", "config.bin", "trace.bin", "--svg", "out.svg"]);
    assert_eq!((said.code, said.out.as_str()), (Some(1), ""));
    assert!(said.err.starts_with("refused 1 1: "), "{}", said.err);
    assert!(!folder.0.join("out.svg").exists());
}

#[test]
fn lanes_show_who_holds_what() {
    let folder = Folder::new().with("logger.txt", LOGGER);
    let picture = folder.osek(&["timeline", "logger.txt", "--svg", "-"]).done();
    // The radio holds the flash, then the record.
    assert_eq!(picture.matches("class=\"held\"").count(), 2, "{picture}");
    let holders: Vec<&str> =
        picture.split("class=\"held\"").skip(1).filter_map(|rest| rest.split('>').nth(2)?.split('<').next()).collect();
    assert_eq!(holders, ["radio", "record"]);
    folder.osek(&["timeline", "logger.txt", "--vcd", "run.vcd"]).prints("", 0);
    let dump = folder.text("run.vcd");
    let id = dump.lines().find_map(|line| line.strip_suffix(" flash_holder $end")?.split(' ').next_back());
    let id = id.expect("the holder is a signal");
    let held: Vec<&str> =
        dump.lines().filter_map(|line| line.strip_prefix('s')?.strip_suffix(&format!(" {id}"))).collect();
    assert_eq!(held, ["-", "radio", "-", "record", "-"]);
}

/// Levels are equally far apart, so that 201 does not press the others together.
#[test]
fn a_level_of_201_does_not_flatten_the_others() {
    let text = "version 1\ntask low priority 1 autostart\ntask high priority 2\ntimed one priority 3\n\
                table round period 9\nat 0 one\ntrace\nactivate high\nstart round 1\ntick\nfinish\nfinish\nfinish\n";
    let picture = Folder::new().with("t.txt", text).osek(&["timeline", "t.txt", "--svg", "-"]).done();
    let path = picture.lines().find(|line| line.contains("class=\"level\"")).expect("there is a level");
    let mut heights: Vec<i64> = path
        .split(['M', 'V'])
        .skip(1)
        .filter_map(|part| {
            part.split([' ', '"']).find(|word| word.contains('.') && !word.contains('H')).or(part.split(' ').nth(1))
        })
        .filter_map(|number| number.parse::<f64>().ok())
        .map(|height| height.round() as i64)
        .collect();
    heights.remove(0);
    heights.sort_unstable();
    heights.dedup();
    // 0, 1, 2 and 201.
    assert_eq!(heights.len(), 4, "{path}");
    let gaps: Vec<i64> = heights.windows(2).map(|pair| pair[1] - pair[0]).collect();
    assert!(gaps.iter().max().zip(gaps.iter().min()).is_some_and(|(most, least)| most - least <= 1), "{gaps:?}");
}

#[test]
fn a_part_of_a_run_is_drawn_and_says_so() {
    let folder = Folder::new().with("logger.txt", LOGGER);
    let picture = folder.osek(&["timeline", "logger.txt", "--svg", "-", "--from", "5", "--to", "9"]).done();
    assert!(picture.contains(">logger.txt (events 5 to 9 of 65; --from and --to show others)<"), "{picture}");
    assert!(picture.contains(">after event 4<") && !picture.contains("fresh start"), "{picture}");
    assert_eq!(picture.matches("class=\"column\"").count(), 5);
    let help = "see osek timeline --help";
    folder
        .osek(&["timeline", "logger.txt", "--svg", "-", "--from", "9", "--to", "8"])
        .fails(2, &format!("timeline: --to takes 9 to 64, not 8; {help}"));
    folder
        .osek(&["timeline", "logger.txt", "--vcd", "-", "--from", "9"])
        .fails(2, &format!("timeline: --from goes with --svg; {help}"));
    // A run of very many events says what is left out.
    let calls: String = (0..3_900).map(|_| "line 0\nfinish\n").collect();
    folder.write("long.txt", format!("version 1\nisr door priority 9\ntrace\n{}", &calls[..calls.len() / 2]));
    let picture = folder.osek(&["timeline", "long.txt", "--svg", "-"]).done();
    assert!(picture.contains("(events 0 to 2999 of 3,900; --from and --to show others)"), "{}", &picture[..2_000]);
}

#[test]
fn a_save_file_for_gtkwave_names_every_signal_of_the_dump() {
    let folder = Folder::new().with("logger.txt", LOGGER);
    folder.osek(&["timeline", "logger.txt", "--vcd", "run.vcd"]).prints("", 0);
    let (dump, save) = (folder.text("run.vcd"), folder.text("run.gtkw"));
    assert!(save.contains("[dumpfile] \"run.vcd\"\n"), "{save}");
    let mut scope = "";
    let mut signals = 0;
    for line in dump.lines() {
        let words: Vec<&str> = line.split(' ').collect();
        match words[..] {
            ["$scope", _, name, _] => scope = name,
            ["$var", _, _, _, name, ref range @ ..] => {
                let range = range.first().filter(|word| word.starts_with('[')).copied().unwrap_or_default();
                assert!(save.contains(&format!("\nosek.{scope}.{name}{range}\n")), "{line}: {save}");
                signals += 1;
            }
            _ => {}
        }
    }
    assert_eq!(save.lines().filter(|line| line.starts_with("osek.")).count(), signals);
    // Decimal is format 24.
    assert!(save.contains("@24\nosek.run.level[7:0]\n"), "{save}");
}

/// A browser runs the page where there is one; what it reads is compared with the listing in any case.
#[test]
fn a_page_has_the_run_and_nothing_from_a_network() {
    let folder = Folder::new().with("listing", DOCUMENT_LISTING);
    std::fs::create_dir(folder.0.join("a<")).expect("a folder can be made");
    folder.write("a</script>.txt", DOCUMENT_TEXT);
    folder.osek(&["timeline", "a</script>.txt", "--html", "run.html"]).prints("", 0);
    let page = folder.text("run.html");
    for outside in ["http:", "https:", "src=", "<link", "@import", "url("] {
        assert!(!page.contains(outside), "{outside}");
    }
    python(&folder, "check_html.py", &["run.html", "listing"]);
    let drawn = accepted(44, 6, 900);
    for (config, trace) in drawn {
        write(&folder, &config, &trace);
        folder.osek(&["timeline", "config.bin", "trace.bin", "--html", "drawn.html"]).prints("", 0);
        python(&folder, "check_html.py", &["drawn.html", "listing"]);
    }
    let address = format!("file://{}/run.html?E_OS_RESOURCE#13", folder.0.display());
    let browser = Command::new("timeout")
        .args([
            "60",
            "chromium",
            "--headless",
            "--no-sandbox",
            "--disable-gpu",
            "--virtual-time-budget=3000",
            "--dump-dom",
        ])
        .arg(&address)
        .env("HOME", &folder.0)
        .output();
    match browser {
        Ok(output) if output.status.success() => {
            let page = String::from_utf8_lossy(&output.stdout).into_owned();
            assert!(page.contains("data-ready=\"17 events, 1 found, 13 chosen\""), "the page's script did not end");
            assert!(
                page.contains("high begins: nobody else is ready or has begun; it is at 5"),
                "the reasons are not shown"
            );
        }
        _ => println!("skipped: chromium is not here"),
    }
}
