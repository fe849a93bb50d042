//! A simulator with one planted fault, for the tests of `osek compare`: `stand_in FAULT CONFIG TRACE`.
//!
//! It plays the events on the tests' fast Rust version and spoils what the fault says; `none` spoils nothing. A fault
//! that begins with `output` makes it print the output's bytes, others the listing.
use std::fmt::Write as _;
use std::io::Write as _;
use std::{env, fs, process, thread, time};

use osek_tests::fast::{self, Answer, Event, Kernel, NextDue, OUTPUT_MAX, TRIGGER_LEVEL};
use osek_tests::listing::listing;

fn main() {
    let arguments: Vec<String> = env::args().skip(1).collect();
    let [fault, config, trace] = &arguments[..] else { panic!("three arguments are needed") };
    let (config, trace) = (fs::read(config).expect("CONFIG can be read"), fs::read(trace).expect("TRACE can be read"));
    let mut out = vec![0; OUTPUT_MAX];
    let result = fast::run::<NextDue>(&config, &trace, &mut out);
    let said = match result >> 32 {
        0 if fault == "no_extended" && is_extended(&config, &trace) => b"refused 5 0\n".to_vec(),
        0 => played(fault, &config, &trace),
        9 if fault == "left_over_accepted" => played(fault, &config[..result as u32 as usize], &trace),
        23 if fault == "unknown_code_one_later" => format!("refused 23 {}\n", (result as u32) + 1).into_bytes(),
        _ => listing(&config, &trace, result, &out).into_bytes(),
    };
    let said = match fault.as_str() {
        "last_line_end_missing" => said[..said.len() - 1].to_vec(),
        "silent" => Vec::new(),
        _ => said,
    };
    std::io::stdout().write_all(&said).expect("standard output can be written");
}

/// An extended task, or an event of its bits.
fn is_extended(config: &[u8], trace: &[u8]) -> bool {
    let config = fast::read_config(config).expect("the configuration is accepted");
    let mut at = 0;
    while let Ok((event, next)) = fast::read_event(trace, at) {
        if matches!(event, Event::Wait(_) | Event::Set(..) | Event::Clear(_)) {
            return true;
        }
        at = next;
    }
    (0..config.bodies()).any(|body| config.is_extended(body as u32))
}

fn played(fault: &str, config_bytes: &[u8], trace: &[u8]) -> Vec<u8> {
    let config = fast::read_config(config_bytes).expect("the configuration is accepted");
    let mut kernel = Kernel::<NextDue>::fresh(&config);
    let mut at = 0;
    let mut ticks = 0;
    let mut answers = Vec::new();
    while at < trace.len() {
        let (event, next) = fast::read_event(trace, at).expect("the trace is accepted");
        ticks += u32::from(event == Event::Tick);
        let mut answer = step(fault, &mut kernel, &config, event, ticks);
        match (fault, event) {
            ("limit_is_id" | "two_faults", Event::Activate(_)) if answer.status == 4 => answer.status = 3,
            ("ceiling_not_shown", _) => {
                if let Some(runner) = kernel.runner().filter(|runner| !config.is_timed(*runner)) {
                    answer.level = config.priority(runner);
                }
            }
            // Of all that have begun the first is said to run.
            ("first_start_first", _) => {
                if let Some(first) = kernel.triggered().next() {
                    answer.runner = first as u8;
                }
            }
            ("trigger_level_shown", _) if kernel.timed_runs() => answer.level = TRIGGER_LEVEL,
            ("chain_crashes", Event::Chain(_)) => process::abort(),
            ("stop_hangs", Event::Stop(_)) => thread::sleep(time::Duration::from_secs(3_600)),
            _ => {}
        }
        answers.push((trace[at], answer));
        at = next;
    }
    let losses: Vec<u16> = match fault {
        "losses_high_byte_first" | "output_losses_high_byte_first" => {
            kernel.losses().iter().map(|loss| loss.swap_bytes()).collect()
        }
        "triggered_loss_forgotten" => {
            let kept = |(body, loss): (usize, &u16)| if config.is_timed(body as u32) { 0 } else { *loss };
            kernel.losses().iter().enumerate().map(kept).collect()
        }
        _ => kernel.losses().to_vec(),
    };
    if fault.starts_with("output") {
        let shown = if fault == "output_without_losses" { &[][..] } else { &losses };
        let losses = shown.iter().flat_map(|loss| loss.to_le_bytes());
        return answers.iter().flat_map(|(_, a)| [a.status, a.runner, a.level, a.begun]).chain(losses).collect();
    }
    listed(fault, &answers, &losses)
}

/// One event; a fault may play another one in its place.
fn step(fault: &str, kernel: &mut Kernel<NextDue>, config: &fast::Config, event: Event, ticks: u32) -> Answer {
    // An event that changes nothing, for its runner and level.
    let looked = |kernel: &mut Kernel<NextDue>| kernel.step(Event::Line(u32::MAX));
    match (fault, event) {
        ("second_request_lost", Event::Line(isr)) if config.is_isr(isr) && kernel.is_started(isr) => {
            Answer { status: 4, ..looked(kernel) }
        }
        ("tenth_tick_lost", Event::Tick) if ticks == 10 => Answer { status: 0, ..looked(kernel) },
        ("delay_one_short", Event::Start(table, delay)) if delay > 1 => kernel.step(Event::Start(table, delay - 1)),
        ("set_bit_forgotten", Event::Wait(_)) => {
            kernel.step(Event::Clear(u32::MAX));
            kernel.step(event)
        }
        ("resumed_begins", Event::Set(task, _)) if task < 32 && kernel.is_waiting(task) => {
            let answer = kernel.step(event);
            Answer { begun: u8::from(kernel.runner() == Some(task)), ..answer }
        }
        ("release_ends_the_body", Event::Release(_)) => {
            let answer = kernel.step(event);
            if answer.status == 0 && answer.begun == 0 && kernel.last_held().is_none() {
                return kernel.step(Event::Finish);
            }
            answer
        }
        _ => kernel.step(event),
    }
}

fn listed(fault: &str, answers: &[(u8, Answer)], losses: &[u16]) -> Vec<u8> {
    let mut text = String::from("step event status runner level begun\n");
    for (index, (code, answer)) in answers.iter().enumerate() {
        let idle = if matches!(fault, "idle_as_255" | "two_faults") { "255" } else { "-" };
        let runner = if answer.runner == fast::IDLE { idle.into() } else { answer.runner.to_string() };
        let _ = writeln!(text, "{index} {code} {} {runner} {} {}", answer.status, answer.level, answer.begun);
    }
    for (body, loss) in losses.iter().enumerate().filter(|(_, loss)| **loss > 0) {
        let _ = writeln!(text, "lost {body} {loss}");
    }
    text.into_bytes()
}
