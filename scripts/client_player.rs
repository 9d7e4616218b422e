//! Plays by clients/rust/cektaulis.rs what its input says, as scripts/client_player.c does. For client_trial.py.

#[path = "../clients/rust/cektaulis.rs"]
#[allow(dead_code)]
mod cektaulis;

use cektaulis::{Action, Answer, Error, Tick, World};
use std::io::{self, BufRead, Write};
use std::time::Duration;

/// Reads actions that commas part.
fn actions_of(text: &str) -> Vec<Action> {
    text.split(',').filter_map(action_of).collect()
}

fn action_of(line: &str) -> Option<Action> {
    let mut words = line.split_whitespace();
    let kind = words.next()?;
    let cell: u32 = words.next()?.parse().ok()?;
    let rest: Vec<&str> = words.collect();
    let target = || rest.first()?.parse::<u32>().ok();
    let value = |at: usize| rest.get(at)?.parse::<u64>().ok();
    Some(match kind {
        "set" => Action::Set {
            cell,
            value: value(0)?,
        },
        "add" => Action::Add {
            cell,
            difference: rest.first()?.parse().ok()?,
        },
        "move" => Action::Move {
            source: cell,
            target: target()?,
            amount: value(1)?,
        },
        "swap" => Action::Swap {
            first: cell,
            second: target()?,
        },
        "cap" => Action::Cap {
            cell,
            value: value(0)?,
        },
        _ => Action::Get { cell },
    })
}

fn text_of(tick: &Tick) -> String {
    let words = tick.answers.iter().map(|answer| match answer {
        Answer::Done => String::from(" +"),
        Answer::Value(value) => format!(" ={value}"),
        Answer::Refused(refusal) => format!(" -{}({refusal})", *refusal as u8),
    });
    format!("tick {}:{}", tick.number, words.collect::<String>())
}

fn name_of(error: Error) -> String {
    match error {
        Error::BadAddress => String::from("bad address"),
        Error::BadAction => String::from("bad action"),
        Error::TooLarge => String::from("too large"),
        Error::NotConnected(_) => String::from("not connected"),
        Error::BatchRefused(_) | Error::LogDown => error.to_string(),
        Error::Unanswered(_) => String::from("unanswered"),
        Error::Garbled(_) => String::from("garbled"),
        Error::MarkerRefused => String::from("marker refused"),
        Error::ActionRefused(_, refusal) => format!("action refused: {refusal}"),
    }
}

fn milliseconds(word: &str) -> Duration {
    Duration::from_millis(word.parse().expect("milliseconds"))
}

/// What came of a command on an open connection.
fn play(world: &mut World, command: &str, rest: &str) -> Result<String, Error> {
    let words: Vec<&str> = rest.split_whitespace().collect();
    let cell = || words[0].parse::<u32>().expect("a cell");
    let number = || words[1].parse::<u64>().expect("a number");
    Ok(match command {
        "reconnect" => world
            .reconnect(milliseconds(rest))
            .map(|_| String::from("ok"))?,
        "step" => world.try_reconnect()?.map_or("none", |_| "ok").to_string(),
        "connections" => world.connections().to_string(),
        "send" => world.send(&actions_of(rest)).map(|()| String::from("ok"))?,
        "play" => text_of(&world.play(&actions_of(rest))?),
        "receive" => text_of(&world.receive()?),
        "poll" => world
            .try_receive()?
            .map_or_else(|| String::from("none"), |tick| text_of(&tick)),
        "played" => (if world.was_played(cell(), number())? {
            "yes"
        } else {
            "no"
        })
        .to_string(),
        "once" => {
            let actions = actions_of(rest.splitn(4, ' ').nth(3).unwrap_or(""));
            let tick = world.play_once(cell(), number(), &actions, milliseconds(words[2]))?;
            tick.map_or_else(|| String::from("answer lost"), |tick| text_of(&tick))
        }
        "again" => {
            let (limit, actions) = rest.split_once(' ').expect("actions");
            text_of(&world.play_again(&actions_of(actions), milliseconds(limit))?)
        }
        "read" => {
            let cells: Vec<u32> = words
                .iter()
                .map(|word| word.parse().expect("a cell"))
                .collect();
            let read = world.read(&cells, Duration::from_secs(30))?;
            read.iter()
                .map(|word| word.to_string())
                .collect::<Vec<_>>()
                .join(" ")
        }
        "load" => {
            let list: Vec<u64> = words[1..]
                .iter()
                .map(|word| word.parse().expect("a word"))
                .collect();
            world
                .load(cell(), &list, Duration::from_secs(30))
                .map(|()| String::from("ok"))?
        }
        "batch" => cektaulis::batch_length(&actions_of(rest)).to_string(),
        "descriptor" => world
            .descriptor()
            .map_or_else(|| String::from("none"), |it| it.to_string()),
        // The type has no value that is no action, except this one.
        "no" => world
            .send(&[Action::Add {
                cell: 0,
                difference: i64::MIN,
            }])
            .map(|()| String::from("ok"))?,
        _ => panic!("{command}"),
    })
}

fn main() -> io::Result<()> {
    let mut world: Option<World> = None;
    for line in io::stdin().lock().lines() {
        let line = line?;
        let (command, rest) = line.split_once(' ').unwrap_or((&line, ""));
        let answer = if command == "open" {
            let (addresses, limit) = rest.rsplit_once(' ').expect("an address");
            let opened = match addresses.strip_prefix("any ") {
                Some(any) => World::open_any(
                    &any.split(' ').collect::<Vec<_>>(),
                    Some(milliseconds(limit)),
                ),
                None => World::open(addresses, Some(milliseconds(limit))),
            };
            opened.map(|opened| {
                world = Some(opened);
                String::from("ok")
            })
        } else {
            play(world.as_mut().expect("a connection"), command, rest)
        };
        println!("{}", answer.unwrap_or_else(name_of));
        io::stdout().flush()?;
    }
    Ok(())
}
