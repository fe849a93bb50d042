//! OIL texts: worked by hand, and drawn and compared with the proved reading, whose slices are guarded.

use std::collections::BTreeMap;

use osek_tests::guard::{announce, report_faults, GuardedOil, Oil, Side};
use osek_tests::oil::{oil, source, Source};

/// Every implementation, with whether its memory is guarded.
fn implementations() -> Vec<(&'static str, Oil, bool)> {
    vec![
        ("descent", oil, false),
        #[cfg(feature = "linked")]
        ("osek_oil", osek_tests::subject::oil, true),
    ]
}

/// What a call gives: the result, the whole configuration buffer, line and column.
type Outcome = (u64, Vec<u8>, [u64; 2]);

fn outcome(run: Oil, source: &Source) -> Outcome {
    let (mut config, mut place) = (source.prefilled(), source.place());
    let result = run(&source.text, &mut config, &mut place);
    (result, config, place)
}

/// All implementations on one text; they must agree on the result, on every byte, on line and column.
fn agreed(source: &Source, memory: &mut GuardedOil, seed: u64, number: u64) -> Outcome {
    let expected = outcome(oil, source);
    for (name, run, guarded) in implementations() {
        let outcomes = if guarded {
            vec![memory.run(run, source, Side::Before), memory.run(run, source, Side::After)]
        } else {
            vec![outcome(run, source)]
        };
        for outcome in outcomes {
            assert!(
                outcome == expected,
                "{name}: {outcome:?}, not {expected:?}: seed {seed} case {number}: {source:?}"
            );
        }
    }
    expected
}

fn read(text: &str, config_len: usize) -> Outcome {
    agreed(&Source { text: text.as_bytes().to_vec(), config_len, fill: 7 }, &mut GuardedOil::default(), 0, 0)
}

/// A text by hand that is refused, at a line and column.
fn refused(text: &str, refusal: u64, line: u64, column: u64) {
    let (result, config, place) = read(text, 40);
    assert_eq!((result, place), (refusal << 32, [line, column]), "{text}");
    assert_eq!(config, Source { text: Vec::new(), config_len: 40, fill: 7 }.prefilled(), "{text}");
}

/// A text by hand and the bytes of its configuration.
fn accepted(text: &str, bytes: &[u8]) {
    let (result, config, place) = read(text, bytes.len());
    assert_eq!((result, &config[..], place), (bytes.len() as u64, bytes, [0, 0]), "{text}");
}

const ONE: &str = "TASK a { PRIORITY = 1; };";

#[test]
fn table_of_the_sloth_thesis_is_read() {
    let text = "TASK Task1 { PRIORITY = 1; AUTOSTART = TRUE; RESOURCE = Res1; RESOURCE = Res2; };
        TASK Task3 { PRIORITY = 3; RESOURCE = Res1; RESOURCE = Res2; };
        TASK Task4 { PRIORITY = 4; };
        ISR ISR2 { PRIORITY = 2; };
        RESOURCE Res1 { }; RESOURCE Res2 { };";
    let bytes = [1, 4, 0, 1, 1, 0, 3, 0, 0, 4, 0, 1, 2, 0, 2, 3, 3, 0];
    accepted(text, &bytes);
    accepted(&text.replace('\n', "\r\n"), &bytes);
    let (result, _, place) = read(text, bytes.len() - 1);
    assert_eq!((result, place), (30 << 32 | bytes.len() as u64, [0, 0]));
}

#[test]
fn words_are_as_long_as_they_go() {
    accepted("TASK TASKS{PRIORITY=7;};", &[1, 1, 0, 7, 0, 0, 0]);
    accepted("TASK TRUE1{AUTOSTART=TRUE;PRIORITY=7;};", &[1, 1, 0, 7, 1, 0, 0]);
    accepted("TASK _int{PRIORITY=7;};//", &[1, 1, 0, 7, 0, 0, 0]);
    refused("TASK a { PRIORITY = 2abc; };", 61, 1, 22);
    refused("TASK a { PRIORITY = 0x10; };", 61, 1, 22);
    refused("TASKa { PRIORITY = 2; };", 62, 1, 1);
    refused("TASK 1a { PRIORITY = 2; };", 61, 1, 6);
}

#[test]
fn numbers_have_any_length() {
    accepted(&format!("TASK a {{ PRIORITY = {}200; }};", "0".repeat(400)), &[1, 1, 0, 200, 1, 0, 0, 0]);
    refused(&format!("TASK a {{ PRIORITY = {}; }};", "9".repeat(400)), 5, 0, 0);
    refused("TASK a { PRIORITY = 4294967297; };", 5, 0, 0);
    refused("TASK a { PRIORITY = 18446744073709551617; };", 5, 0, 0);
    refused("TASK a { PRIORITY = 257; };", 5, 0, 0);
}

#[test]
fn comments_stand_at_every_place_and_do_not_nest() {
    accepted("/*1*/TASK/*2*/a/**/{/***/PRIORITY/*\n*/=/*5*/7/*6*/;//7\n}/*8*/;/*9*///", &[1, 1, 0, 7, 0, 0, 0]);
    accepted(&format!("/*/*/{ONE}"), &[1, 1, 0, 1, 0, 0, 0]);
    refused(&format!("/* /* */ */ {ONE}"), 60, 1, 10);
    refused(&format!("{ONE} /*/"), 60, 1, 27);
    refused(&format!("{ONE}\n  /* *"), 60, 2, 3);
    refused("TASK a /", 60, 1, 8);
    refused("TASK a \\\n", 60, 1, 8);
}

#[test]
fn refusals_come_in_reading_order() {
    refused("TASK = #", 61, 1, 6);
    refused("# TASK =", 60, 1, 1);
    refused("ALARM a { };", 62, 1, 1);
    refused("TASK a { AUTOSTART = TRUE; };", 61, 1, 28);
    refused("ISR a { AUTOSTART = TRUE; };", 62, 1, 9);
    refused("RESOURCE r { RESOURCE = r; };", 62, 1, 14);
    refused("RESOURCE r { = };", 61, 1, 14);
    refused("TASK a { PRIORITY = 1; PRIORITY = 2; };", 63, 1, 24);
    refused("TASK a { AUTOSTART = TRUE; AUTOSTART = FALSE; PRIORITY = 1; };", 63, 1, 28);
    refused("TASK a { PRIORITY = 1; };\r\nISR a { };", 63, 2, 5);
    refused("RESOURCE a { }; RESOURCE a { }; ALARM", 63, 1, 26);
    refused("TASK a { PRIORITY = 1; RESOURCE = b; }; ALARM", 62, 1, 41);
    refused("TASK a { PRIORITY = 0; RESOURCE = a; RESOURCE = b; };", 64, 1, 35);
    refused("TASK a { PRIORITY = 1; }; TASK b { PRIORITY = 0; }; TASK c { PRIORITY = 1; };", 5, 0, 0);
    refused("TASK a { PRIORITY = 1; }; TASK b { PRIORITY = 1; }; TASK c { PRIORITY = 0; };", 6, 0, 0);
    refused("TASK a { PRIORITY = 1; }; RESOURCE r { };", 5, 0, 0);
    refused("", 4, 0, 0);
    refused(" // nothing\n", 4, 0, 0);
}

#[test]
fn a_text_that_breaks_off_is_refused_past_its_last_byte() {
    refused("TASK", 61, 1, 5);
    refused("TASK a { PRIORITY = 1; }", 61, 1, 25);
    refused("TASK a\n", 61, 2, 1);
    refused("TASK a\r\n\n // x", 61, 3, 6);
}

#[test]
fn a_use_may_come_before_its_resource_and_twice() {
    accepted("TASK t { RESOURCE = r; PRIORITY = 9; RESOURCE = r; }; RESOURCE r { };", &[1, 1, 0, 9, 0, 1, 1, 0]);
}

#[test]
fn counts_are_tested_after_the_whole_text() {
    let bodies = |n: usize| (0..n).map(|i| format!("ISR i{i} {{ PRIORITY = {}; }};\n", i + 1)).collect::<String>();
    let resources = |n: usize| {
        let uses: String = (0..n).map(|i| format!("RESOURCE = r{i}; ")).collect();
        let objects: String = (0..n).map(|i| format!("RESOURCE r{i} {{ }};\n")).collect();
        format!("TASK t {{ PRIORITY = 1; {uses}}};\n{objects}")
    };
    assert_eq!(read(&bodies(32), 200).0, 100);
    refused(&bodies(33), 4, 0, 0);
    refused(&(bodies(33) + "TASK t { PRIORITY = 0; RESOURCE = r; };"), 64, 34, 35);
    refused(&(bodies(33) + "ISR i7"), 63, 34, 5);
    assert_eq!(read(&resources(16), 200).0, 23);
    refused(&resources(17), 4, 0, 0);
    refused(&(bodies(2_000) + "ISR i1999"), 63, 2001, 5);
    refused(&(resources(300) + "RESOURCE r299"), 63, 302, 10);
}

#[test]
fn every_byte_of_a_name_counts() {
    let long =
        |last: char| format!("TASK {}{last} {{ PRIORITY = {}; }};\n", "x".repeat(39), last as u32 - 'a' as u32 + 1);
    accepted(&(long('a') + &long('b')), &[1, 2, 0, 1, 0, 0, 2, 0, 0, 0]);
    refused(&(long('a') + &long('b') + &long('a')), 63, 3, 6);
    accepted("TASK Ab { PRIORITY = 1; }; TASK aB { PRIORITY = 2; };", &[1, 2, 0, 1, 0, 0, 2, 0, 0, 0]);
    refused("TASK Ab { PRIORITY = 1; RESOURCE = R; }; RESOURCE r { };", 64, 1, 36);
    accepted("TASK _Zz9 { PRIORITY = 1; };", &[1, 1, 0, 1, 0, 0, 0]);
}

#[test]
fn spaces_are_those_of_c() {
    accepted("\tTASK\u{b}a\u{c}{\rPRIORITY\n= 1;};", &[1, 1, 0, 1, 0, 0, 0]);
    refused("TASK\u{8}a", 60, 1, 5);
    refused("TASK\u{e}a", 60, 1, 5);
    refused("// a\r#\n\t#", 60, 2, 2);
}

/// How often each refusal was seen, 0 for accepted texts.
#[test]
fn drawn_texts_are_read_alike() {
    report_faults();
    let mut memory = GuardedOil::default();
    let mut seen: BTreeMap<u64, usize> = BTreeMap::new();
    for seed in [1, 20_261_116] {
        for number in 0..4_000 {
            announce(seed, number);
            let source = source(seed, number);
            let (result, ..) = agreed(&source, &mut memory, seed, number);
            *seen.entry(result >> 32).or_default() += 1;
        }
    }
    println!("{seen:?}");
    for refusal in [0, 4, 5, 6, 30, 60, 61, 62, 63, 64] {
        assert!(seen.get(&refusal).is_some_and(|count| *count >= 40), "too few of {refusal}: {seen:?}");
    }
    assert!(seen[&0] + seen[&30] >= 2_600, "too few accepted: {seen:?}");
}

/// Seconds of processor time that this thread has used.
#[cfg(feature = "linked")]
fn seconds() -> f64 {
    extern "C" {
        fn clock_gettime(clock: i32, time: *mut [i64; 2]) -> i32;
    }
    const THREAD: i32 = 3;
    let mut time = [0; 2];
    assert_eq!(unsafe { clock_gettime(THREAD, &mut time) }, 0);
    time[0] as f64 + time[1] as f64 * 1e-9
}

/// Time goes with the length where a configuration's 48 objects stand, however many uses there are.
#[cfg(feature = "linked")]
#[test]
fn time_is_linear_in_the_text_for_48_objects() {
    let time = |uses: usize| {
        let resources: String = (0..16).map(|i| format!("RESOURCE r{i} {{ }};\n")).collect();
        let body = |i: usize| {
            let uses: String = (0..uses / 32).map(|u| format!("RESOURCE = r{}; ", (u + i) % 16)).collect();
            format!("TASK t{i} {{ PRIORITY = {}; {uses}}};\n", i + 1)
        };
        let text = (0..32).map(body).collect::<String>() + &resources;
        let once = || {
            let start = seconds();
            assert_eq!(osek_tests::subject::oil(text.as_bytes(), &mut [0; 200], &mut [0; 2]), 180);
            (seconds() - start) / text.len() as f64
        };
        (0..5).map(|_| once()).fold(f64::MAX, f64::min)
    };
    let (few, many) = (time(1_000), time(16_000));
    println!("{few} s a byte, {many} s");
    assert!(many < 4.0 * few, "{few} s a byte for 1,000 uses, {many} s for 16,000");
}

/// The hash of a name at a key, as the reading takes it to tell classes of names.
#[cfg(feature = "linked")]
fn hash(key: u64, name: &str) -> u64 {
    name.bytes().fold(0, |hash, byte| (hash * key + u64::from(byte)) % 4_294_967_291)
}

/// A name of letters for each number.
#[cfg(feature = "linked")]
fn named(mut number: usize, length: usize) -> String {
    let letter = |place: usize| char::from(b"abcdefghijklmnopqrstuvwxyzABCDEFGHIJKLMNOPQRSTUVWXYZ_"[place % 53]);
    (0..length).map(|_| (letter(number), number /= 53).0).collect()
}

/// A megabyte of any sort of text takes seconds at most, also where it is refused for its many names.
#[cfg(feature = "linked")]
#[test]
fn a_megabyte_is_read_in_time() {
    const SIZE: usize = 1_000_000;
    let fill = |start: &str, part: &dyn Fn(usize) -> String| {
        let mut text = start.to_string();
        for number in 0.. {
            if text.len() >= SIZE {
                break;
            }
            text += &part(number);
        }
        text
    };
    let object = |name: &str| format!("RESOURCE {name}{{}};");
    let objects = fill("", &|i| object(&named(i, 3)));
    let half: String = (0..33_000).map(|i| object(&named(i, 3))).collect();
    let uses = fill(&(half + "TASK t__{PRIORITY=1;"), &|i| format!("RESOURCE={};", named(i * 7_919 % 33_000, 3)));
    // 37 classes for so many names: at a key that does not go by the text these would be of one.
    let together: Vec<String> =
        (0..).map(|i| named(i, 5)).filter(|name| hash(65_599, name) % 37 == 0).take(SIZE / 17).collect();
    let texts = [
        ("objects", objects.clone()),
        ("a name twice at the end", objects.clone() + "ISR aaa{PRIORITY=1;};"),
        ("uses", uses.clone() + "};"),
        ("a use that is not borne at the end", uses + "RESOURCE=zzzz;};"),
        ("names that are alike up to the end", fill("", &|i| object(&("x".repeat(96) + &named(i, 4))))),
        ("names of one class at a common key", together.iter().map(|name| object(name)).collect()),
        ("one comment", format!("{ONE}/*{}*/", "/* ".repeat(SIZE / 3))),
        ("an open comment", format!("{ONE}/*{}", " *".repeat(SIZE / 2))),
        ("line comments", format!("{ONE}{}", "//\n".repeat(SIZE / 3))),
        ("one number", format!("TASK a {{ PRIORITY = {}; }};", "9".repeat(SIZE))),
    ];
    for (what, text) in &texts {
        let start = seconds();
        let (mut bytes, mut place) = ([0; 40], [0; 2]);
        let result = osek_tests::subject::oil(text.as_bytes(), &mut bytes, &mut place);
        let time = seconds() - start;
        println!("{what}: {time} s");
        let (mut expected, mut there) = ([0; 40], [0; 2]);
        assert_eq!(result, oil(text.as_bytes(), &mut expected, &mut there), "{what}");
        assert_eq!((bytes, place), (expected, there), "{what}");
        assert!(time < 5.0, "{what}: {time} s");
    }
}
