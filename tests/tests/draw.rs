//! Drawn traces: worked by hand, and requests drawn and compared with the proved draw, whose slices are guarded.

use osek_tests::cases::Random;
use osek_tests::draw::{draw, events, request, Argument, Request, Xorshift, ARGUMENTS, TRACE_MAX};
use osek_tests::fast::NextDue;
use osek_tests::guard::{announce, report_faults, Draw, GuardedDraw, Side};
use osek_tests::{cases, fast, plain};

/// Every implementation, with whether its memory is guarded.
fn implementations() -> Vec<(&'static str, Draw, bool)> {
    vec![
        ("word by word", draw, false),
        #[cfg(feature = "linked")]
        ("osek_draw", osek_tests::subject::draw, true),
    ]
}

/// What a call gives: the result and the whole output.
type Outcome = (u64, Vec<u8>);

fn outcome(draw: Draw, request: &Request) -> Outcome {
    let mut out = request.prefilled();
    (draw(request.start, &request.weights, &request.limits, request.count, &mut out), out)
}

/// All implementations on one request; they must agree on the result and on every byte.
fn agreed(request: &Request, memory: &mut GuardedDraw, seed: u64, number: u64) -> Outcome {
    let expected = outcome(draw, request);
    for (name, draw, guarded) in implementations() {
        let outcomes = if guarded {
            vec![memory.run(draw, request, Side::Before), memory.run(draw, request, Side::After)]
        } else {
            vec![outcome(draw, request)]
        };
        for outcome in outcomes {
            assert!(outcome == expected, "{name} differs: seed {seed} case {number}: {request:02x?}");
        }
    }
    expected
}

fn by_hand(request: &Request) -> Outcome {
    agreed(request, &mut GuardedDraw::default(), 0, 0)
}

/// Weight `weight` for one code, 0 for the others.
fn alone(code: usize, weight: u16) -> [u16; 12] {
    let mut weights = [0; 12];
    weights[code - 1] = weight;
    weights
}

/// 5 bodies, 3 resources, 2 tables, delays below 100.
const LIMITS: [u16; 4] = [5, 3, 2, 100];

fn asked(start: u32, weights: [u16; 12], count: u32, out_len: usize) -> Request {
    Request { start, weights, limits: LIMITS, count, out_len, fill: 7 }
}

/// The eight events from 2,463,534,242 on with all weights equal, worked out apart from any code here.
const EIGHT: [u8; 23] = [
    0x08, 0x00, 0x00, 0x07, 0x04, 0x03, 0x04, 0x06, 0x0c, 0xb9, 0xfc, 0xbc, 0xf1, 0x09, 0x06, 0x0a, 0xa6, 0xf9, 0xa7,
    0xe1, 0x0a, 0x01, 0x01,
];

#[test]
fn the_generator_has_its_check_values() {
    assert_eq!(Xorshift(1).take(2).collect::<Vec<_>>(), [270_369, 67_634_689]);
    assert_eq!(Xorshift(2_463_534_242).next(), Some(723_471_715));
}

#[test]
fn eight_events_have_the_bytes_worked_out() {
    let request = asked(2_463_534_242, [1; 12], 8, 24);
    let (result, out) = by_hand(&request);
    assert_eq!(result, 23);
    assert_eq!((&out[..23], out[23]), (&EIGHT[..], request.prefilled()[23]));
}

#[test]
fn each_weight_alone_draws_its_code_alone() {
    let first: [&[u32]; 12] = [
        &[1, 4],
        &[2],
        &[3, 4],
        &[4, 1],
        &[5, 1],
        &[6],
        &[7, 4],
        &[8, 1, 61],
        &[9, 1],
        &[10, 67_634_689],
        &[11, 4, 2_647_435_461],
        &[12, 67_634_689],
    ];
    for (code, expected) in (1..).zip(first) {
        for weight in [1, 7, 65_535] {
            let drawn = events(1, &alone(code, weight), &LIMITS, 200);
            assert_eq!(drawn[0], expected);
            assert!(drawn.iter().all(|event| event[0] == code as u32));
            assert!(by_hand(&asked(1, alone(code, weight), 200, TRACE_MAX)).0 >> 32 == 0);
        }
    }
}

#[test]
fn arguments_stay_below_limits_of_1_and_of_65_535() {
    for limit in [1, 65_535] {
        let request = Request { limits: [limit; 4], ..asked(77, [9; 12], 800, TRACE_MAX) };
        let (result, _) = by_hand(&request);
        assert_eq!(result >> 32, 0);
        let mut most = 0;
        for event in events(77, &request.weights, &request.limits, 800) {
            for (number, argument) in event[1..].iter().zip(ARGUMENTS[event[0] as usize - 1]) {
                if *argument != Argument::Mask {
                    assert!(*number < u32::from(limit));
                    most = most.max(*number);
                }
            }
        }
        assert!(if limit == 1 { most == 0 } else { most > 60_000 }, "{most}");
    }
}

#[test]
fn the_last_of_65_536_values_picks_the_weight_of_1() {
    let mut weights = alone(1, 65_535);
    weights[5] = 1;
    assert_eq!(events(7_619, &weights, &LIMITS, 3), [vec![6], vec![1, 3], vec![1, 3]]);
    assert_eq!(by_hand(&asked(7_619, weights, 3, 9)).1[..5], [6, 1, 3, 1, 3]);
}

#[test]
fn refusals_come_in_order_and_leave_the_output() {
    let refused = |request: Request| {
        let (result, out) = by_hand(&request);
        assert_eq!(out, request.prefilled());
        (result >> 32, result as u32)
    };
    for count in [0, 1, 9_000, u32::MAX] {
        assert_eq!(refused(asked(0, [0; 12], count, 9)), (50, 0));
        assert_eq!(refused(asked(1, [0; 12], count, 9)), (51, 0));
        for sort in 0..4 {
            let mut limits = LIMITS;
            limits[sort] = 0;
            // Ticks need no limit.
            assert_eq!(refused(Request { limits, ..asked(1, alone(6, 1), count, 9) }), (51, 0));
        }
    }
    assert_eq!(refused(asked(1, alone(6, 1), 8_193, 0)), (20, 0));
    assert_eq!(refused(asked(1, alone(6, 1), u32::MAX, 9_000)), (20, 0));
    assert_eq!(refused(asked(2_463_534_242, [1; 12], 8, 22)), (30, 23));
    assert_eq!(refused(asked(2_463_534_242, [1; 12], 8, 0)), (30, 23));
}

#[test]
fn counts_of_0_and_1_and_what_just_fits_8_192_bytes() {
    assert_eq!(by_hand(&asked(1, [1; 12], 0, 0)).0, 0);
    assert_eq!(by_hand(&asked(1, alone(6, 1), 1, 1)), (1, vec![6]));
    assert_eq!(by_hand(&asked(1, alone(6, 1), 8_192, 8_192)), (8_192, vec![6; 8_192]));
    assert_eq!(by_hand(&asked(1, alone(6, 1), 8_192, 8_191)).0, 30 << 32 | 8_192);
    // Activate of a body below 5 takes two bytes.
    assert_eq!(by_hand(&asked(1, alone(1, 1), 4_096, 8_192)).0, 8_192);
    assert_eq!(by_hand(&asked(1, alone(1, 1), 4_097, 8_194)).0, 20 << 32);
}

#[test]
fn four_billion_events_are_refused_at_once() {
    let begun = std::time::Instant::now();
    for _ in 0..100 {
        assert_eq!(by_hand(&asked(1, [1; 12], u32::MAX, 8)).0, 20 << 32);
    }
    assert!(begun.elapsed().as_secs() < 10);
}

/// What drawn requests showed.
#[derive(Default, Debug)]
struct Seen {
    zero_start: usize,
    nothing_to_draw: usize,
    too_long: usize,
    too_short: usize,
    exact: usize,
    codes: [usize; 12],
}

impl Seen {
    fn count(&mut self, request: &Request, result: u64) {
        match result >> 32 {
            0 => {
                self.exact += usize::from(result as usize == request.out_len);
                for event in events(request.start, &request.weights, &request.limits, request.count) {
                    self.codes[event[0] as usize - 1] += 1;
                }
            }
            20 => self.too_long += 1,
            30 => self.too_short += 1,
            50 => self.zero_start += 1,
            51 => self.nothing_to_draw += 1,
            other => panic!("refusal {other}"),
        }
    }

    fn everything(&self) -> bool {
        let each = [self.zero_start, self.nothing_to_draw, self.too_long, self.too_short, self.exact];
        each.iter().chain(&self.codes).all(|count| *count > 20)
    }
}

#[test]
fn drawn_requests_are_answered_alike() {
    report_faults();
    let seed = 5;
    let mut memory = GuardedDraw::default();
    let mut seen = Seen::default();
    for number in 0..4_000 {
        announce(seed, number);
        let request = request(seed, number);
        let (result, _) = agreed(&request, &mut memory, seed, number);
        seen.count(&request, result);
    }
    assert!(seen.everything(), "too seldom: {seen:?}");
}

#[test]
fn drawn_traces_are_run_whole() {
    let runs = [
        plain::run,
        fast::run::<NextDue>,
        #[cfg(feature = "linked")]
        osek_tests::subject::run,
    ];
    let mut random = Random::new(11);
    let accepted =
        (0..).map(|number| cases::case(11, number).config).filter(|config| fast::read_config(config).is_ok());
    for config in accepted.take(300) {
        let weights = std::array::from_fn(|_| random.between(0, 65_535) as u16);
        let limits = std::array::from_fn(|_| random.pick(&[1, 3, 33, 65_535]));
        let mut trace = vec![0; TRACE_MAX];
        let length = draw(random.between(1, 1 << 31) as u32, &weights, &limits, 400, &mut trace);
        assert_eq!(length >> 32, 0);
        for run in runs {
            let result = run(&config, &trace[..length as usize], &mut [0; 1_664]);
            assert_eq!(result, 400, "{config:02x?} {:02x?}", &trace[..length as usize]);
        }
    }
}

#[test]
fn codes_are_drawn_in_proportion_to_their_weights() {
    let weights: [u16; 12] = [1_000, 2_000, 0, 500, 4_000, 8_000, 1, 3_000, 65_535, 20, 700, 40_000];
    let total: f64 = weights.iter().map(|weight| f64::from(*weight)).sum();
    let mut seen = [0.0; 12];
    for start in 1..=100 {
        for event in events(start * 40_503, &weights, &[32, 16, 8, 65_535], 1_000) {
            seen[event[0] as usize - 1] += 1.0;
        }
    }
    for (weight, seen) in weights.iter().zip(seen) {
        let expected = 100_000.0 * f64::from(*weight) / total;
        // Five standard deviations of a count.
        let off: f64 = seen - expected;
        assert!(off.abs() <= 5.0 * expected.sqrt() + 1.0, "weight {weight}: {seen}, not {expected:.0}");
    }
}
