//! Worked exchanges of the panel, request 2026-09, tried on the model, on the plain code and on the
//! proved library; then the model against the plain code on random cases.

use compare::cases::{self, COUNT_ABOVE, HIGHEST};
use compare::model::Book;
use compare::requests::{self, READ_ALL, VALUE_ENTRY};
use compare::rng::Rng;
use compare::types::{Opening, Search, Written, LONGEST_REPLY, SLOTS};
use compare::{ffi, panel_model, plain};

const M: Opening = Opening::new(1, 0, 100, 1);

/// Document 01's first trial: the stop is 41 to 43, better 43, after 5 answers.
const VALUES: [i32; 5] = [-50, 100, -10, -2, 1];

type Panel = fn(&mut Search, &[u8], &mut [u8]) -> Written;

const PANELS: [Panel; 3] = [panel_model::panel, plain::panel, ffi::panel];

/// The search that holds these values.
fn holding(values: &[i32]) -> Search {
    Book::of(M, values).search()
}

/// Searches of the first trial at every stage: after none of its values, after the first, and so on.
fn stages() -> Vec<Search> {
    let lengths = 0..=VALUES.len();
    lengths.map(|n| holding(&VALUES[..n])).collect()
}

/// Tries a request on all three, into buffers of 16 bytes and more: the reply, the bytes past it,
/// which stay, and the search afterwards.
fn exchange(search: &Search, request: &[u8], reply: &[u8], after: &Search) {
    for panel in PANELS {
        for size in [16, 17, 40] {
            let mut buffer = vec![b'#'; size];
            let mut held = *search;
            let written = panel(&mut held, request, &mut buffer);
            assert_eq!(written, Written::bytes(reply.len() as u32), "{request:?}");
            let (begun, rest) = buffer.split_at(reply.len());
            assert_eq!(begun, reply, "{request:?}");
            assert!(rest.iter().all(|&byte| byte == b'#'), "{request:?}");
            assert_eq!(held, *after, "{request:?}");
        }
    }
}

/// A request whose reply is this, and which alters nothing.
fn reads(search: &Search, request: &[u8], reply: &[u8]) {
    exchange(search, request, reply, search);
}

/// A request that gives this exception.
fn exception(search: &Search, request: &[u8], number: u8) {
    reads(search, request, &[request[0] | 0x80, number]);
}

/// A value that is entered: the request comes back.
fn enters(before: &[i32], value: i32) {
    let after = holding(&[before, &[value]].concat());
    let request = requests::enter(value);
    exchange(&holding(before), &request, &request, &after);
}

/// All seven registers of a search.
fn shows(search: &Search, registers: [u16; 7]) {
    let words = registers.map(u16::to_be_bytes).concat();
    reads(search, &READ_ALL, &[&[3, 14], &words[..]].concat());
}

/// The first trial by bytes, from the fresh search to the stop.
#[test]
fn the_first_trial() {
    let [fresh, one, two, .., four, stop] = stages()[..] else {
        panic!("the first trial has five values");
    };
    reads(
        &fresh,
        &[0x03, 0x00, 0x00, 0x00, 0x07],
        &[0x03, 0x0E, 0, 1, 0, 0, 0, 0, 0, 0, 0, 0, 0x00, 0x00, 0, 0],
    );
    let first = [0x06, 0x00, 0x06, 0xFF, 0xCE];
    exchange(&fresh, &first, &first, &one);
    reads(
        &one,
        &[0x03, 0x00, 0x00, 0x00, 0x07],
        &[
            0x03, 0x0E, 0, 1, 0, 0x64, 0, 0, 0, 0, 0, 0, 0x00, 0x01, 0, 0,
        ],
    );
    let second = [0x06, 0x00, 0x06, 0x00, 0x64];
    exchange(&one, &second, &second, &two);
    reads(&two, &[0x03, 0, 1, 0, 1], &[0x03, 0x02, 0x00, 0x21]);
    let last = [0x06, 0x00, 0x06, 0x00, 0x01];
    exchange(&four, &last, &last, &stop);
    reads(
        &stop,
        &[0x03, 0x00, 0x00, 0x00, 0x07],
        &[
            0x03, 0x0E, 0, 2, 0, 0, 0, 0x29, 0, 0x2B, 0, 0x2B, 0x00, 0x05, 0, 0,
        ],
    );
    reads(&stop, &last, &[0x86, 0x03]);
}

/// Register 1 is 0 after the stop, 2 to 4 are 0 before it, and 6 is always 0.
#[test]
fn registers_at_every_stage() {
    let shown = [
        [1, 0, 0, 0, 0, 0, 0],
        [1, 100, 0, 0, 0, 1, 0],
        [1, 33, 0, 0, 0, 2, 0],
        [1, 41, 0, 0, 0, 3, 0],
        [1, 43, 0, 0, 0, 4, 0],
        [2, 0, 41, 43, 43, 5, 0],
    ];
    for (search, registers) in stages().iter().zip(shown) {
        shows(search, registers);
    }
    for (n, &value) in VALUES.iter().enumerate() {
        enters(&VALUES[..n], value);
    }
}

/// A roaster's points need all 16 bits: 60,000 is EA60.
#[test]
fn registers_of_a_roaster() {
    let roaster = |first, second| Opening::new(1, first, second, 1);
    shows(
        &Search::fresh(roaster(HIGHEST, 0)),
        [1, 60_000, 0, 0, 0, 0, 0],
    );
    shows(
        &Book::of(roaster(59_998, HIGHEST), &[-1, 1]).search(),
        [2, 0, 59_998, 60_000, 60_000, 2, 0],
    );
}

/// Every read of one register to seven that ends with register 6 or before it, and no other.
#[test]
fn reads_of_some_registers() {
    let words: [u16; 7] = [2, 0, 41, 43, 43, 5, 0];
    let stop = holding(&VALUES);
    for address in 0..=8 {
        for quantity in 1..=125 {
            let request = requests::read(address as u16, quantity as u16);
            match words.get(address..address + quantity) {
                Some(read) => {
                    let bytes: Vec<u8> = read.iter().flat_map(|word| word.to_be_bytes()).collect();
                    let reply = [&[3, 2 * quantity as u8], &bytes[..]].concat();
                    reads(&stop, &request, &reply);
                }
                None => exception(&stop, &request, 2),
            }
        }
    }
}

/// An empty request gets an empty reply, whatever the search is.
#[test]
fn empty_requests() {
    let mut refused = holding(&VALUES);
    refused.count = COUNT_ABOVE;
    for search in [refused, holding(&[]), holding(&VALUES)] {
        reads(&search, &[], &[]);
    }
}

/// Searches that are refused, each by another check.
fn refused_searches() -> Vec<Search> {
    let counting = |count| Search {
        count,
        ..holding(&VALUES)
    };
    let opened = |opening| Search {
        opening,
        ..holding(&[-50])
    };
    let mut values = [counting(1), counting(2), counting(2)];
    values[0].slots[0] = 10_001;
    values[1].slots[1] = -50;
    values[2].slots[1] = i32::MIN;
    let others = [
        counting(COUNT_ABOVE),
        counting(u32::MAX),
        counting(6),
        counting(SLOTS as u32),
        opened(Opening::new(3, 0, 100, 1)),
        opened(Opening::new(1, 0, 60_001, 1)),
        opened(Opening::new(1, 0, 0, 1)),
        opened(Opening::new(1, 0, 100, 0)),
        opened(M.with_share(101)),
        Search::fresh(Opening::new(0, 0, 0, 0)),
    ];
    [&values[..], &others].concat()
}

/// 04 comes before all that may be wrong with a request that is not empty.
#[test]
fn searches_refused() {
    for search in refused_searches() {
        for request in [
            &READ_ALL[..],
            &requests::enter(0),
            &requests::enter(10_001),
            &requests::read(0, 0),
            &requests::read(7, 1),
            &requests::write(5, 0),
            &[3],
            &[6, 0, 6, 0],
            &[0],
            &[1],
            &[16, 0, 6, 0, 1, 2, 0, 0],
            &[128],
            &[255, 0, 0, 0, 1],
        ] {
            exception(&search, request, 4);
        }
    }
}

/// Every function but 03 and 06 gives 01, whatever the length. One from 128 on has its top bit set
/// already.
#[test]
fn other_functions() {
    for function in (0..=255).filter(|function| ![3, 6].contains(function)) {
        for length in [1, 2, 4, 5, 6, 253] {
            let mut request = vec![0; length];
            request[0] = function;
            exception(&holding(&[-50]), &request, 1);
        }
    }
    reads(&holding(&[]), &[0x2B, 0x0E, 1, 0], &[0xAB, 1]);
    reads(&holding(&[]), &[0x83, 0, 0, 0, 1], &[0x83, 1]);
    reads(&holding(&[]), &[0x00], &[0x80, 1]);
    reads(&holding(&[]), &[0xFF], &[0xFF, 1]);
}

/// A wrong length gives 03, before the address and all else.
#[test]
fn wrong_lengths() {
    let bytes = |function, length| {
        let mut request = vec![9; length];
        request[0] = function;
        request
    };
    for length in (1..=300).filter(|&length| length != 5) {
        exception(&holding(&[]), &bytes(3, length), 3);
        exception(&holding(&[]), &bytes(6, length), 3);
    }
    exception(&holding(&[]), &[&READ_ALL[..], &[0]].concat(), 3);
    exception(&holding(&[]), &READ_ALL[..4], 3);
    exception(&holding(&[]), &[6, 0, 6, 0], 3);
}

/// A quantity outside 1 to 125 gives 03, before the address, which gives 02. An address near the last
/// does not come round to the first.
#[test]
fn quantities_and_addresses() {
    let fresh = holding(&[]);
    for address in [0, 6, 7, 256, u16::MAX] {
        for quantity in [0, 126, 127, 128, 255, 256, 1_792, 32_768, u16::MAX] {
            exception(&fresh, &requests::read(address, quantity), 3);
        }
    }
    for (address, quantity) in [(0, 8), (0, 125), (1, 7), (6, 2), (7, 1), (256, 1)] {
        exception(&fresh, &requests::read(address, quantity), 2);
    }
    for (address, quantity) in [(65_535, 1), (65_535, 2), (65_530, 7), (65_529, 7)] {
        exception(&fresh, &requests::read(address, quantity), 2);
    }
    reads(&fresh, &requests::read(6, 1), &[3, 2, 0, 0]);
}

/// A write elsewhere gives 02, before a value that the search refuses.
#[test]
fn writes_elsewhere() {
    for search in stages() {
        for address in [0, 1, 2, 3, 4, 5, 7, 8, 256, 0x0600, 0x0606, u16::MAX] {
            for word in [0, 1, 10_001, 32_768] {
                exception(&search, &requests::write(address, word), 2);
            }
        }
    }
}

/// Values are words in two's complement.
#[test]
fn values_at_the_limits() {
    for value in [-10_000, -9_999, -1, 0, 1, 127, 128, 255, 256, 9_999, 10_000] {
        enters(&[], value);
    }
    for value in [-32_768, -32_767, -10_001, 10_001, 32_767] {
        for search in stages() {
            exception(&search, &requests::enter(value), 3);
        }
    }
    let of_word = requests::write(VALUE_ENTRY, 65_535);
    assert_eq!(of_word, requests::enter(-1));
    enters(&[1], -1);
}

/// A second value on the first's side, and every value after the stop, gives 03.
#[test]
fn values_refused() {
    for value in [-1, -10_000] {
        exception(&holding(&[-50]), &requests::enter(value), 3);
    }
    exception(&holding(&[50]), &requests::enter(50), 3);
    enters(&[0], 50);
    enters(&[0], -50);
    enters(&[-50], 0);
    for value in [-10_000, -1, 0, 1, 10_000] {
        exception(&holding(&VALUES), &requests::enter(value), 3);
    }
}

/// 18 is checked first: before an empty request and before a search that is refused. Nothing is
/// written.
#[test]
fn short_buffers() {
    for search in [stages(), refused_searches()].concat() {
        for request in [&[][..], &[0], &READ_ALL, &requests::enter(0), &[6, 0]] {
            for size in 0..16 {
                for panel in PANELS {
                    let mut buffer = vec![b'#'; size];
                    let mut held = search;
                    let written = panel(&mut held, request, &mut buffer);
                    assert_eq!(written, Written::refuse(18, 0));
                    assert_eq!(buffer, vec![b'#'; size]);
                    assert_eq!(held, search);
                }
            }
        }
    }
}

/// The longest reply is that to a read of all seven registers.
#[test]
fn the_longest_reply() {
    assert_eq!(LONGEST_REPLY, 16);
}

#[test]
fn model_and_plain_on_requests() {
    let mut rng = Rng::new(11);
    for _ in 0..20_000 {
        let mut one = cases::any_search(&mut rng);
        let mut other = one;
        let request = requests::any(&mut rng);
        let size = rng.below(40);
        let (mut first, mut second) = (vec![b'#'; size], vec![b'#'; size]);
        let (model, plain) = (
            panel_model::panel(&mut one, &request, &mut first),
            plain::panel(&mut other, &request, &mut second),
        );
        assert_eq!((model, first), (plain, second), "{one:?} {request:?}");
        assert_eq!(one, other, "{request:?}");
    }
}
