//! A warden's figures, for mornings so small that they can be worked out by hand.

use nets::{run, Settings};

/// Two laptops, one record and one bird; a packet takes one second, and none is
/// lost. A few are held back: which, and when the bird comes, is the seed's.
fn figures(seed: u64) -> Vec<String> {
    let settings = Settings {
        seed,
        laptops: 2,
        records: 1,
        rings: 1,
        recaptures: 0,
        deaths: 0,
        late: 0,
        ticks: 100,
        loss: 0,
        repeat: 0,
        delay: 1,
        ..Settings::default()
    };
    let report = match run(&settings, |_| ()) {
        Ok(report) => report.to_string(),
        Err(failure) => panic!("{failure}"),
    };
    let lines = report.lines().skip_while(|l| !l.is_empty()).skip(1);
    lines
        .take_while(|l| !l.is_empty())
        .map(str::to_owned)
        .collect()
}

/// Laptop 0 saves 30 bytes at 4; its INV comes at 5, the ACK at 6, the VAL at 7.
/// So it is finished after 2 s; laptop 0 cannot read from 4 to 6, and laptop 1
/// from 5 to 7. That is 4 s of the twice 100 s in which birds come.
///
/// The VAL leaves at 6, 14, 30 and 62, and then after the birds. Laptop 0 sends
/// 4 + 16 + 30 and four times 20, which is 130 bytes, laptop 1 sends 20: in 100 s.
#[test]
fn a_save_without_trouble() {
    let right = [
        "                     number    median  95 of 100    worst",
        "save to finished          1       2 s        2 s      2 s  every laptop of the view has it",
        "save to replaced          0         -          -        -  a later save of another laptop stands",
        "record unreadable         2       2 s        2 s      2 s  at one laptop",
        "never finished            0  saves, at a laptop that died or was struck off",
        "unreadable          2.000 %  of the time of all records at laptops in service, while birds come",
        "openings                  1  by ringers; 0 met an unreadable record",
        "bytes an hour         5,400  on air from all laptops, while birds come",
        "  a laptop            2,700  on average",
        "  the busiest         4,680  laptop 0",
    ];
    assert_eq!(figures(32), right);
}

/// Laptop 1 saves 108 bytes at 44. Its INV comes at 45, but the ACK is held back;
/// the INV goes again at 52, comes at 53, and the ACK at 54. So it is finished
/// after 10 s. Laptop 1 cannot read from 44 to 54, laptop 0 from 45 to 55.
///
/// Laptop 1 sends two INVs of 128 bytes, and its VAL at 54, 62 and 78: 316 bytes.
/// Laptop 0 sends two ACKs, 40 bytes.
#[test]
fn a_save_whose_acknowledgement_is_held_back() {
    let lines = figures(18);
    let right = [
        "save to finished          1      10 s       10 s     10 s",
        "record unreadable         2      10 s       10 s     10 s",
        "unreadable         10.000 %",
        "bytes an hour        12,816",
        "  a laptop            6,408",
        "  the busiest        11,376  laptop 1",
    ];
    for line in right {
        assert!(
            lines.iter().any(|l| l.starts_with(line)),
            "no {line:?} in {lines:#?}"
        );
    }
}
