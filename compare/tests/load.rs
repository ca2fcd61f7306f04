//! Worked trial loads, request 2026-11, tried on the model, on the plain code and on the proved
//! library; then the model against the plain code on random seeds.

use compare::rng::Rng;
use compare::types::{Answered, Opening, Report, Search, LARGEST_SEED, LONGEST_CLEAN_SHEET};
use compare::{ffi, load_model, model, plain};
use std::fs;

type Load = fn(u32) -> Answered;
type Draw = fn(u32) -> u32;

const LOADS: [Load; 3] = [load_model::load, plain::load, ffi::load];
const DRAWS: [Draw; 3] = [load_model::draw, plain::draw, ffi::draw];

/// Tries a seed on all three: the clean sheet of its load, and the record of the report.
fn load(seed: u32, sheet: &str, report: &str) {
    for load in LOADS {
        let load = load(seed);
        assert_eq!(load.report.to_string(), report, "seed {seed}");
        let mut buffer = [0; LONGEST_CLEAN_SHEET];
        let length = ffi::write(&load.search, &mut buffer).length as usize;
        let written = str::from_utf8(&buffer[..length]).expect("a sheet is plain text");
        assert_eq!(written, sheet, "seed {seed}");
        let read = model::read(sheet.as_bytes()).map(|book| book.search());
        assert_eq!(read, Ok(load.search), "seed {seed}");
    }
}

/// Tries a seed that is refused: beside the refusal every number is 0.
fn refused(seed: u32) {
    for load in LOADS {
        let Answered { report, search } = load(seed);
        assert_eq!(report, Report::refuse(20, 0), "seed {seed}");
        assert_eq!(search.opening, Opening::new(0, 0, 0, 0));
        assert_eq!((search.count, search.slots), (0, [0; 77]));
    }
}

/// The first draws from seed 1, and the 10,000th, which Park and Miller give to check by.
#[test]
fn draws_from_seed_1() {
    let first = [
        16_807,
        282_475_249,
        1_622_650_073,
        984_943_658,
        1_144_108_930,
        470_211_272,
        101_027_544,
        1_457_850_878,
        1_458_777_923,
        2_007_237_709,
    ];
    for draw in DRAWS {
        let mut last = 1;
        for expected in first {
            last = draw(last);
            assert_eq!(last, expected);
        }
        for _ in first.len()..10_000 {
            last = draw(last);
        }
        assert_eq!(last, 1_043_618_065);
    }
}

/// Draws at the limits. 2^32 − 1 is twice the modulus and 1 more.
#[test]
fn draws_at_the_limits() {
    for draw in DRAWS {
        assert_eq!(draw(0), 0);
        assert_eq!(draw(127_773), 2_147_480_811);
        assert_eq!(draw(127_774), 13_971);
        assert_eq!(draw(1_407_677_000), 1);
        assert_eq!(draw(739_806_647), 2_147_483_646);
        assert_eq!(draw(2_147_483_646), 2_147_466_840);
        assert_eq!(draw(2_147_483_647), 0);
        assert_eq!(draw(2_147_483_648), 16_807);
        assert_eq!(draw(4_294_967_293), 2_147_466_840);
        assert_eq!(draw(4_294_967_294), 0);
        assert_eq!(draw(4_294_967_295), 16_807);
    }
}

/// From seed 1 the ends are 16,807 and 282,475,249 − 4,707 · 60,001, the tolerance is 1 + 73, the
/// method 1 + 0, and the first values are 11,728 − 10,000 and 7,763 − 10,000.
#[test]
fn seed_1() {
    let sheet = "1,16807,50542,74\r\n16807,1728\r\n50542,-2237\r\n31509,-7507\r\n19557,7990\r\n\
                 25720,-5012\r\n22639,7353\r\n24472,-6736\r\n23556,-7604\r\n23089,5273\r\n\
                 23322,9331\r\n23451,-7753\r\n";
    load(1, sheet, "stop,23322,23451,23451,11");
}

/// By M: 7,465 was drawn as −7,465. The linear estimate is 3,899 from 24,034, so the step is the
/// tolerance, and the bracket is then that long.
#[test]
fn seed_5() {
    let sheet = "1,24034,12706,4425\r\n24034,-3919\r\n12706,7465\r\n19609,2465\r\n";
    load(5, sheet, "stop,19609,24034,19609,3");
}

/// By R: −1,051 was drawn as 1,051. Both estimates, 2,904 and 103 from the better end, are below the
/// tolerance. A third value of the second's sign stays as it is.
#[test]
fn seed_4() {
    let sheet = "2,7227,22165,4352\r\n7227,4354\r\n22165,-1051\r\n17813,-28\r\n13461,9401\r\n";
    load(4, sheet, "stop,13461,17813,17813,4");
}

/// The largest seed. By R: 1,484 was drawn as −1,484, and the third value is of its sign.
#[test]
fn the_largest_seed() {
    let sheet = "2,31050,57316,3575\r\n31050,-5449\r\n57316,1484\r\n51694,3786\r\n41372,8290\r\n\
                 36211,1291\r\n";
    load(LARGEST_SEED, sheet, "stop,31050,36211,36211,5");
}

/// Second values of the first's sign: 8,061 after 3,258, and −9,405 after −6,940. The ends are no
/// further apart than twice the tolerance.
#[test]
fn second_values_negated() {
    let from_above = "2,57648,53789,2277\r\n57648,3258\r\n53789,-8061\r\n";
    load(7, from_above, "stop,53789,57648,57648,2");
    let from_below = "2,21681,18638,3054\r\n21681,-6940\r\n18638,9405\r\n";
    load(12, from_below, "stop,18638,21681,21681,2");
}

/// Beside a value of 0 the other stays as it was drawn.
#[test]
fn values_of_0() {
    let above = "2,5824,7996,1203\r\n5824,0\r\n7996,2267\r\n";
    load(156_205, above, "stop,5824,7996,5824,2");
    let below = "2,35312,35831,4622\r\n35312,0\r\n35831,-8648\r\n";
    load(113_828, below, "stop,35312,35831,35312,2");
    let second = "1,51993,47804,4624\r\n51993,1845\r\n47804,0\r\n";
    load(234_148, second, "stop,47804,51993,47804,2");
    let both = "1,43293,14853,3691\r\n43293,0\r\n14853,0\r\n18544,708\r\n";
    load(1_782_778_675, both, "stop,14853,18544,14853,3");
    let both = "2,42335,29547,1278\r\n42335,0\r\n29547,0\r\n30825,-7200\r\n";
    load(195_282_929, both, "stop,29547,30825,29547,3");
}

/// The first draws of seed 23,272 both leave 45,986: the second end is one more. So with twice that
/// seed, where the second value is negated too, and with the ends at 0.
#[test]
fn ends_drawn_equal() {
    let sheet = "2,45986,45987,9\r\n45986,-6581\r\n45987,4146\r\n";
    load(23_272, sheet, "stop,45986,45987,45987,2");
    let sheet = "2,31971,31972,17\r\n31971,560\r\n31972,-2013\r\n";
    load(46_544, sheet, "stop,31971,31972,31971,2");
    let sheet = "1,0,1,3126\r\n0,1771\r\n1,-1951\r\n";
    load(1_495_840_490, sheet, "stop,0,1,0,2");
}

/// Two draws that leave 60,000 make the ends 60,000 and 0. No seed has them: the rule is tried on the
/// model alone.
#[test]
fn ends_drawn_equal_at_the_highest_point() {
    let opening = load_model::opening([60_000, 120_001, 9_999, 3]);
    assert_eq!(opening, Opening::new(2, 60_000, 0, 5_000));
    let firsts = (60_000..=LARGEST_SEED).step_by(60_001);
    let (both, one): (Vec<u32>, Vec<u32>) =
        firsts.partition(|&first| load_model::draw(first) % 60_001 == 60_000);
    assert_eq!((both.len(), one.len()), (0, 35_790));
}

/// Openings at the limits of what is drawn.
#[test]
fn openings_at_the_limits() {
    let opening = |draws, numbers: [i32; 4]| {
        let [method, first, second, tolerance] = numbers;
        let expected = Opening::new(method, first, second, tolerance);
        assert_eq!(load_model::opening(draws), expected);
    };
    opening([60_001, 60_000, 5_000, 2], [1, 0, 60_000, 1]);
    opening([60_000, 60_001, 4_999, 1], [2, 60_000, 0, 5_000]);
    opening([1, 1, 1, 1], [2, 1, 2, 2]);
    opening([59_999, 59_999, 0, 0], [1, 59_999, 60_000, 1]);
    opening([LARGEST_SEED; 4], [1, 47_856, 47_857, 3_647]);
}

/// The seeds from 1 to 2,147,483,646 are taken, and no others.
#[test]
fn refused_seeds() {
    for seed in [0, 2_147_483_647, 2_147_483_648, 2_147_483_649] {
        refused(seed);
    }
    for seed in [2_147_493_648, 3_000_000_000, 4_294_967_294, 4_294_967_295] {
        refused(seed);
    }
    for load in LOADS {
        for seed in [1, 2, 2_147_483_645, 2_147_483_646] {
            assert_eq!(load(seed).report.kind, Report::STOP, "seed {seed}");
        }
    }
}

/// Two of the longest loads, by M and by R, and what is quoted for them.
#[test]
fn long_loads() {
    for (seed, method, most) in [(1_869_948_444, 1, 62), (1_655_497_921, 2, 77)] {
        for load in LOADS {
            let Search { opening, count, .. } = load(seed).search;
            assert_eq!((opening.method, opening.tolerance), (method, 1));
            let quoted = model::quote(&opening).most;
            assert_eq!((count, quoted), (23, most), "seed {seed}");
        }
    }
}

/// The sheets in examples/loads, each of which has its seed for a name.
#[test]
fn examples() {
    let folder = concat!(env!("CARGO_MANIFEST_DIR"), "/../examples/loads");
    let mut tried = 0;
    for file in fs::read_dir(folder).expect("examples/loads is there") {
        let path = file.expect("its files can be listed").path();
        let name = path.file_stem().and_then(|name| name.to_str());
        let seed = name.and_then(|name| name.parse().ok());
        let seed = seed.expect("a file's name is a seed");
        let sheet = fs::read_to_string(&path).expect("a sheet can be read");
        let report = model::sheet(sheet.as_bytes()).to_string();
        load(seed, &sheet, &report);
        tried += 1;
    }
    assert_ne!(tried, 0);
}

#[test]
fn model_and_plain_on_seeds() {
    let mut rng = Rng::new(14);
    for _ in 0..20_000 {
        let seed = rng.any() as u32;
        assert_eq!(load_model::load(seed), plain::load(seed), "seed {seed}");
        assert_eq!(load_model::draw(seed), plain::draw(seed), "after {seed}");
    }
}
