//! The gate's run: random calls and random recordings from fixed seeds on the library and on the second program, every
//! report of document 01's table and of W1 reached. With `-- --nocapture` it prints the tables. The documents' own
//! cases are in document.rs and series.rs.
use twin::readings::Readings;
use twin::table::Table;
use twin::{readers, runs};

const SEEDS: [u64; 4] = [1, 1_000_001, 2_000_001, 3_000_001];
const CALLS_A_SEED: u64 = 300_000;
const RECORDINGS_A_SEED: u64 = 1_000;

#[test]
fn library_and_second_program_agree() {
    let mut table = Table::default();
    for seed in SEEDS {
        if let Err(what) = runs::stream(seed, CALLS_A_SEED, &mut table, |_| {}) {
            panic!("a difference: {what}");
        }
    }
    println!("{table}");
    assert_eq!(
        table.gaps(),
        Vec::<String>::new(),
        "reports reached, and given where they may not be"
    );
    assert!(table.calls() >= 1_000_000, "calls");
    assert!(
        table.walks > 1000 && table.named > table.walks && table.longest >= 64,
        "walks"
    );
    assert!(
        table.both > table.sound / 5 && table.other > table.sound / 5,
        "both readings are used"
    );
}

#[test]
fn readers_of_a_series_agree() {
    let mut table = Readings::default();
    for seed in SEEDS {
        if let Err(what) = readers::stream(seed, RECORDINGS_A_SEED, &mut table, |_| {}) {
            panic!("a difference: {what}");
        }
    }
    println!("{table}");
    assert_eq!(table.gaps(), Vec::<String>::new(), "reports and answers reached");
}
