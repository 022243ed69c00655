//! The commands of the twin.

use std::collections::HashMap;
use std::io::{self, Read, Write};

use twin::block::{self, Block};
use twin::decoder::Limits;
use twin::material::{self, Random};
use twin::plan::{Kind, Request};
use twin::script::Player;
use twin::{check, stored_scripts, stored_walks, walk};

const USAGE: &str = "\
twin polarwalk < BLOCK          print what polarwalk prints
twin plan < BLOCK               print the plan of a block file
twin trace < BLOCK              print the search step by step:
    MET FLOOR BOUND STEPS FAILURES: METRIC/LENGTH/SERIAL of each kept candidate
twin walks < HEX                print what walks prints for block files in hex, one a line
twin scripts < SCRIPTS          print what scripts prints for calls of a decoder, one a line
twin encode KEY=VALUE ... > BLOCK
    n A E t p check             the plan request (check 0, 6, 11, 4 or 24)
    S store C T words           the search
    payload                     bits; without it, random ones from seed
    level noise seed            each bit is received as +-level, moved by up to +-noise
twin many SEED COUNT            print COUNT random block files in hex, one a line
twin many SEED COUNT DIR        write them as DIR/NUMBER.block and DIR/NUMBER.lines
twin make-walks > HEX           write the stored input of walks
twin make-scripts > SCRIPTS     write the stored input of scripts";

type Outcome = Result<(), String>;

fn main() {
    let args: Vec<String> = std::env::args().skip(1).collect();
    let args: Vec<&str> = args.iter().map(String::as_str).collect();
    let outcome = match args[..] {
        ["polarwalk"] => polarwalk(),
        ["plan"] => plan(),
        ["trace"] => trace(),
        ["walks"] => walks(),
        ["scripts"] => scripts(),
        ["encode", ref pairs @ ..] => encode(pairs),
        ["many", seed, count] => many(seed, count, None),
        ["many", seed, count, dir] => many(seed, count, Some(dir)),
        ["make-walks"] => make_walks(),
        ["make-scripts"] => print_all(&stored_scripts::lines()),
        _ => Err(USAGE.to_string()),
    };
    if let Err(message) = outcome {
        eprintln!("{message}");
        std::process::exit(2);
    }
}

fn input() -> Result<Vec<u8>, String> {
    let mut bytes = Vec::new();
    io::stdin()
        .read_to_end(&mut bytes)
        .map_err(|e| e.to_string())?;
    Ok(bytes)
}

fn polarwalk() -> Outcome {
    for line in walk::lines(&input()?) {
        println!("{line}");
    }
    Ok(())
}

fn trace() -> Outcome {
    match walk::trace(&input()?) {
        Ok(lines) => lines.iter().for_each(|line| println!("{line}")),
        Err(refusal) => println!("{refusal}"),
    }
    Ok(())
}

fn list(numbers: &[usize]) -> String {
    numbers.iter().map(|i| format!(" {i}")).collect()
}

fn plan() -> Outcome {
    let plan = match block::read(&input()?).and_then(|block| walk::plan_of(&block)) {
        Ok(plan) => plan,
        Err(refusal) => {
            println!("{refusal}");
            return Ok(());
        }
    };
    println!("mode {}", format!("{:?}", plan.mode).to_lowercase());
    println!("N {} K {}", plan.len(), plan.word());
    println!("information{}", list(&plan.positions(Kind::Information)));
    println!("parity{}", list(&plan.positions(Kind::Parity)));
    println!("unsent{}", list(&plan.unsent()));
    Ok(())
}

fn encode(pairs: &[&str]) -> Outcome {
    let mut keys = HashMap::new();
    for pair in pairs {
        let (key, value) = pair
            .split_once('=')
            .ok_or(format!("{pair}: KEY=VALUE is wanted"))?;
        keys.insert(key, value);
    }
    let number = |key: &str, default: i64| match keys.get(key) {
        None => Ok(default),
        Some(text) => text.parse::<i64>().map_err(|e| format!("{key}: {e}")),
    };
    let request = Request {
        n: number("n", 5)? as u32,
        payload: number("A", 4)? as usize,
        sent: number("E", 32)? as usize,
        low: number("t", 0)? as usize,
        parity: number("p", 0)? as usize,
    };
    let limits = Limits {
        capacity: number("S", 8)? as usize,
        failures: number("C", 1)? as u32,
        steps: number("T", 4096)? as u32,
    };
    let check = number("check", 0)? as u8;
    let store = number("store", 0)? as u8;
    let words = number("words", 1)? as u8;
    let mut block = Block {
        request,
        check,
        limits,
        store,
        words,
        values: Vec::new(),
    };
    check::by_code(check).ok_or("check: 0, 6, 11, 4 or 24")?;
    let plan = walk::plan_of(&block).map_err(|r| r.to_string())?;
    let mut random = Random(number("seed", 1)? as u64);
    let payload = match keys.get("payload") {
        Some(text) => text.bytes().map(|b| b.wrapping_sub(b'0')).collect(),
        None => random.bits(request.payload),
    };
    let sent = material::sent_bits(&plan, check, &payload).map_err(|r| r.to_string())?;
    block.values = material::receive(
        &sent,
        number("level", 10)?,
        number("noise", 0)?,
        &mut random,
    );
    let text: String = payload.iter().map(|b| b.to_string()).collect();
    eprintln!("payload {text}");
    io::stdout()
        .write_all(&block::write(&block))
        .map_err(|e| e.to_string())
}

fn many(seed: &str, count: &str, dir: Option<&str>) -> Outcome {
    let mut random = Random(seed.parse().map_err(|_| "SEED is a number")?);
    let count: usize = count.parse().map_err(|_| "COUNT is a number")?;
    for number in 0..count {
        let bytes = material::block_file(&mut random);
        let Some(dir) = dir else {
            print_all(&[walk::hex(&bytes)])?;
            continue;
        };
        let lines: String = walk::lines(&bytes)
            .iter()
            .map(|line| format!("{line}\n"))
            .collect();
        let name = format!("{dir}/{number:05}");
        std::fs::write(format!("{name}.block"), &bytes).map_err(|e| e.to_string())?;
        std::fs::write(format!("{name}.lines"), &lines).map_err(|e| e.to_string())?;
    }
    Ok(())
}

fn print_all(lines: &[String]) -> Outcome {
    let text: String = lines.iter().map(|line| format!("{line}\n")).collect();
    io::stdout()
        .write_all(text.as_bytes())
        .map_err(|e| e.to_string())
}

fn input_lines() -> Result<Vec<String>, String> {
    let text = String::from_utf8(input()?).map_err(|e| e.to_string())?;
    Ok(text.split_terminator('\n').map(str::to_string).collect())
}

fn walks() -> Outcome {
    print_all(&walk::all_lines(&input_lines()?))
}

fn scripts() -> Outcome {
    let mut player = Player::default();
    let answers = input_lines()?
        .iter()
        .flat_map(|line| player.play(line))
        .collect::<Vec<String>>();
    print_all(&answers)
}

/// The block files on standard output, and on standard error what they come to.
fn make_walks() -> Outcome {
    let blocks = stored_walks::blocks();
    eprintln!("{}", stored_walks::summary(&blocks));
    print_all(&stored_walks::lines(&blocks))
}
