//! Makes the calls of the table that `DENIAL_CASES` names, and compares the results.
//!
//! `tests/bindings/cases` prints that table, and says what its lines are.
use denial::{Error, Hashing, Judgement, Verdict, Zone};
use std::fmt::Write;

/// The octets of an argument in Base 16.
fn octets(word: &str) -> Vec<u8> {
    if word == "-" {
        return Vec::new();
    }
    let digit = |at: usize| u8::from_str_radix(&word[at..at + 2], 16).expect("Base 16");
    (0..word.len()).step_by(2).map(digit).collect()
}

/// Octets in Base 16.
fn hexed(octets: &[u8]) -> String {
    if octets.is_empty() {
        return "-".to_string();
    }
    octets.iter().fold(String::new(), |mut text, octet| {
        write!(text, "{octet:02x}").expect("a text");
        text
    })
}

/// A number of an argument.
fn number<T: std::str::FromStr>(word: &str) -> T {
    word.parse().ok().expect("a number")
}

/// The result of a call that makes a chain.
fn chain(call: &str, words: &[&str]) -> Result<String, Error> {
    let apex = octets(words[0]);
    let zone = Zone {
        apex: &apex,
        class: number(words[1]),
        assume_dnskey: words[2] == "1",
        occlude_below_dname: words[3] == "1",
    };
    let records = octets(words[words.len() - 1]);
    let made = if call == "nsec_chain" {
        denial::nsec_chain(&zone, &records)?
    } else {
        let salt = octets(words[5]);
        let hashing = Hashing {
            iterations: number(words[4]),
            salt: &salt,
            opt_out: words[6] == "1",
        };
        denial::nsec3_chain(&zone, &hashing, &records)?
    };
    Ok(format!("48 {}", hexed(&made)))
}

/// The result of the call that looks for names with the same hash.
fn collision(words: &[&str]) -> Result<String, Error> {
    let (apex, salt) = (octets(words[0]), octets(words[4]));
    let mut zone = Zone::new(&apex);
    zone.class = number(words[1]);
    zone.occlude_below_dname = words[2] == "1";
    let hashing = Hashing {
        iterations: number(words[3]),
        salt: &salt,
        opt_out: words[5] == "1",
    };
    let pair = denial::nsec3_collision(&zone, &hashing, &octets(words[6]))?;
    Ok(pair.map_or("49 0".to_string(), |(earlier, later)| {
        format!("28 {}{}", hexed(earlier.as_octets()), hexed(later.as_ref()))
    }))
}

/// The result of a call that judges.
fn judged(call: &str, words: &[&str]) -> Result<Judgement, Error> {
    let (apex, name, class) = (octets(words[0]), octets(words[1]), number(words[3]));
    let records = octets(words[words.len() - 1]);
    if call == "judge_nsec" {
        return denial::judge_nsec(&apex, &name, number(words[2]), class, &records);
    }
    let limit = number(words[4]);
    if call.contains("expansion") {
        let function = match call {
            "judge_nsec3_expansion" => denial::judge_nsec3_expansion,
            "judge_nsec3_expansion_alone" => denial::judge_nsec3_expansion_alone,
            _ => panic!("no call is {call}"),
        };
        return function(&apex, &name, number(words[2]), class, limit, &records);
    }
    let function = match call {
        "judge_nsec3" => denial::judge_nsec3,
        "judge_nsec3_alone" => denial::judge_nsec3_alone,
        _ => panic!("no call is {call}"),
    };
    function(&apex, &name, number(words[2]), class, limit, &records)
}

/// The result of a call that checks.
fn checked(call: &str, words: &[&str]) -> Result<Verdict, Error> {
    let (apex, name) = (octets(words[0]), octets(words[1]));
    let function = match call {
        "check_nsec" => denial::check_nsec,
        "check_nsec3" => denial::check_nsec3,
        "check_nsec3_alone" => denial::check_nsec3_alone,
        _ => panic!("no call is {call}"),
    };
    function(
        &apex,
        &name,
        number(words[2]),
        number(words[3]),
        &octets(words[4]),
    )
}

/// The lengths of records, as the table has them.
fn lengths(octets: &[u8]) -> String {
    let lengths: Vec<_> = denial::records(octets)
        .map(|it| it.len().to_string())
        .collect();
    match lengths.len() {
        0 => "0 -".to_string(),
        count => format!("{count} {}", lengths.join(",")),
    }
}

/// The result of a call, as the table has it.
fn result(call: &str, words: &[&str]) -> Result<String, Error> {
    Ok(match call {
        "version" => format!("{} 0", denial::version()),
        "text" => format!(
            "{} {}",
            words[0],
            hexed(denial::text(number(words[0])).as_bytes())
        ),
        "name_length" => {
            format!(
                "{} 0",
                denial::name_length(&octets(words[0])).expect("a name")
            )
        }
        "each_record" => lengths(&octets(words[0])),
        "nsec_chain" | "nsec3_chain" => chain(call, words)?,
        "nsec3_collision" => collision(words)?,
        _ if call.starts_with("judge") => {
            let answer = judged(call, words)?;
            format!("{} {}", answer.number(), answer.labels().unwrap_or(0))
        }
        _ => {
            let verdict = checked(call, words)?;
            format!("{} {}", verdict.number(), verdict.labels().unwrap_or(0))
        }
    })
}

#[test]
fn cases() {
    let Some(path) = std::env::var_os("DENIAL_CASES") else {
        println!("DENIAL_CASES names no table");
        return;
    };
    let table = std::fs::read_to_string(path).expect("the table");
    for line in table.lines() {
        let words: Vec<&str> = line.split(' ').collect();
        let (asked, wanted) = words.split_at(words.len() - 2);
        let said = result(asked[0], &asked[1..]).unwrap_or_else(|error| match wanted[1] {
            "?" => format!("{} ?", error.number()),
            _ => format!("{} {}", error.number(), error.offset().unwrap_or(0)),
        });
        assert_eq!(said, wanted.join(" "), "{line:.200}");
    }
    println!("cases: {}", table.lines().count());
}
