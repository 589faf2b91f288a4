//! Errors, buffers and records, as a program sees them.
use denial::{Error, Hashing, Judgement, Verdict, Zone};

const NSEC: &[u8] = b"\x01n\x01a\0\0\x2f\0\x01\0\0\x07\x08\0\x0b\x01a\0\0\x06\x40\0\0\0\0\x03";
const SOA: &[u8] = b"\x01a\0\0\x06\0\x01\0\0\x0e\x10\0\x1a\x01b\0\x01c\0\
    \0\0\0\x01\0\0\0\x02\0\0\0\x03\0\0\0\x04\0\0\x07\x08";
const APEX: &[u8] = b"\x01a\0";

/// Passes an error on, as `?` does.
fn passed_on(records: &[u8]) -> Result<Vec<u8>, Box<dyn std::error::Error + Send + Sync>> {
    Ok(denial::nsec_chain(&Zone::new(APEX), records)?)
}

#[test]
fn errors_have_their_place() {
    let error = passed_on(&[SOA, b"\x40"].concat()).expect_err("no records");
    assert_eq!(error.to_string(), "malformed records at octet 39");
    let error = error
        .downcast_ref::<Error>()
        .expect("an error of the crate");
    assert_eq!(
        *error,
        Error::BadRecords {
            offset: Some(SOA.len())
        }
    );
    let error = denial::judge_nsec(APEX, APEX, 1, 1, b"\x40").expect_err("no records");
    assert_eq!(
        (error, error.offset()),
        (Error::BadRecords { offset: None }, None)
    );
    assert_eq!(error.to_string(), "malformed records");
    assert_eq!(
        denial::check_nsec(b"", APEX, 1, 1, NSEC),
        Err(Error::BadApex)
    );
}

#[test]
fn answers_have_texts() {
    let answer = denial::judge_nsec(APEX, b"\x01x\x01n\x01a\0", 1, 1, NSEC);
    assert_eq!(answer, Ok(Judgement::NameError { labels: 2 }));
    assert_eq!(
        answer.map(|it| it.to_string()),
        Ok("name error".to_string())
    );
    let verdict = denial::check_nsec(APEX, b"\x01x\x01n\x01a\0", 1, 1, NSEC);
    assert_eq!(verdict, Ok(Verdict::NoName { labels: 2 }));
    assert_eq!(
        denial::judge_nsec(APEX, APEX, 1, 1, &[]),
        Ok(Judgement::NotProven)
    );
}

#[test]
fn buffers_are_written_only_if_there_is_room() {
    let zone = Zone::new(APEX);
    let chain = denial::nsec_chain(&zone, SOA).expect("a chain");
    for room in 0..chain.len() {
        let mut buffer = vec![0xee; room];
        let said = denial::nsec_chain_into(&zone, SOA, &mut buffer);
        assert_eq!(
            said,
            Err(Error::ShortBuffer {
                needed: chain.len()
            })
        );
        assert!(buffer.iter().all(|&octet| octet == 0xee));
    }
    let mut buffer = vec![0xee; chain.len() + 1];
    assert_eq!(
        denial::nsec_chain_into(&zone, SOA, &mut buffer),
        Ok(chain.len())
    );
    assert_eq!(buffer, [&chain[..], b"\xee"].concat());
    let hashed = denial::nsec3_chain(&zone, &Hashing::default(), SOA).expect("a chain");
    assert_eq!(denial::records(&hashed).count(), 2);
    assert_eq!(
        denial::nsec3_collision(&zone, &Hashing::default(), SOA),
        Ok(None)
    );
}

#[test]
fn records_end_where_none_begins() {
    let octets = [NSEC, NSEC, b"\x01"].concat();
    let mut records = denial::records(&octets);
    assert_eq!(records.by_ref().collect::<Vec<_>>(), [NSEC, NSEC]);
    assert_eq!(records.rest(), b"\x01");
    for end in 0..NSEC.len() {
        assert_eq!(denial::records(&NSEC[..end]).count(), 0);
    }
}

#[test]
fn calls_run_in_threads() {
    let call = || denial::judge_nsec(APEX, b"\x01x\x01n\x01a\0", 1, 1, NSEC);
    let threads: Vec<_> = (0..8).map(|_| std::thread::spawn(call)).collect();
    for thread in threads {
        let said = thread.join().expect("a thread that ends");
        assert_eq!(said, Ok(Judgement::NameError { labels: 2 }));
    }
}
