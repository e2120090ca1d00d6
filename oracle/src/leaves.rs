// 000's leaves: against 01's formulas, over all values where that is cheap, and against what the port's program `leaf_checks`
// printed of its records.
use super::controller::{descriptor_words, new_ehci, new_endpoint, setup_of, without_retries, words_of_head};
use super::*;
use crate::regs;
use usb_if::endpoint::TransferBuffer;

// In the order of their numbers in a record of `leaf_checks`.
const PIDS: [QtdPid; 3] = [QtdPid::Out, QtdPid::In, QtdPid::Setup];
const KINDS: [EndpointType; 4] =
    [EndpointType::Control, EndpointType::Isochronous, EndpointType::Bulk, EndpointType::Interrupt];
const DIRECTIONS: [Direction; 2] = [Direction::Out, Direction::In];

// ---- 000's functions on plain values

/// The chain of `with_..` that 000 writes at each place.
fn started(pid: QtdPid, bytes: usize, interrupt: bool, toggle: bool) -> u32 {
    let token = QtdToken::new(pid, bytes).with_error_counter(3).with_active(true);
    token.with_interrupt_on_complete(interrupt).with_data_toggle(toggle).raw()
}

fn plan(direction: Direction, length: usize) -> ControlTdPlan {
    let buffer = (length > 0).then_some(TransferBuffer { address: 0, len: length });
    build_control_td_plan(&TransferRequest::Control { setup: setup_of([0; 6]), direction, buffer }).unwrap()
}

fn setup_bytes(number: u64, length: usize) -> [u8; 8] {
    let bytes: [u8; 6] = number.to_le_bytes()[..6].try_into().unwrap();
    setup_packet_bytes(&setup_of(bytes), DIRECTIONS[(bytes[0] >> 7) as usize], length)
}

/// For the functions that change a head or an id.
fn an_endpoint() -> EhciEndpoint {
    dma_api::lay_out([1, 2, 1, 1], crate::generate::AREAS);
    new_endpoint(&new_ehci(1), EndpointType::Control).1
}

// ---- 01's formulas

mod formula {
    pub fn token(pid: u32, bytes: u32, interrupt: bool, toggle: bool) -> u32 {
        pid * 256 + bytes.min(32767) * 65536 + 3 * 1024 + 128 + interrupt as u32 * 32768 + toggle as u32 * (1 << 31)
    }

    pub fn chunk_length(k: usize, length: usize, limit: usize) -> usize {
        length.saturating_sub(k * limit).min(limit)
    }

    pub fn slots(address: u64, length: u64) -> [u32; 5] {
        let page = |i: u64| match i {
            _ if length == 0 => 0,
            0 => address,
            _ if address - address % 4096 + 4096 * i < address + length => address - address % 4096 + 4096 * i,
            _ => 0,
        };
        std::array::from_fn(|i| page(i as u64) as u32)
    }

    pub fn head(kind: usize, address: u32, number: u32, packet: u32) -> [u32; 17] {
        let mut words = [0; 17];
        words[0] = 1;
        words[1] = address + number * 256 + 8192 + packet * 65536 + 15 * (1 << 28) + if kind == 0 { 16384 } else { 0 };
        words[2] = (1 << 30) + (kind == 3) as u32;
        words[4] = 1;
        words[5] = 1;
        words
    }
}

pub fn run() {
    let (readings, retried) = token_readers();
    let counts = [
        ("tokens", tokens()),
        ("readings of a token", readings),
        ("readings of a token with bits 3 to 5 and not 6, which are altered for 000 (N27)", retried),
        ("control plans", plans()),
        ("splits at 20480", splits()),
        ("descriptors", descriptors()),
        ("setup packets", setups()),
        ("heads", heads()),
        ("set address and set packet size", changes()),
        ("unlink distances", distances()),
        ("port readings", port_readings()),
        ("request ids", ids()),
    ];
    for (name, count) in counts {
        println!("{count:>9}  {name}");
    }
    println!("{:>9}  in all, equal to 01's formulas as 02 has them", counts.iter().map(|(_, count)| count).sum::<u64>());
}

fn tokens() -> u64 {
    let mut count = 0;
    for (number, pid) in PIDS.into_iter().enumerate() {
        for bytes in 0..=40000u32 {
            for (interrupt, toggle) in [(false, false), (false, true), (true, false), (true, true)] {
                let expected = formula::token(number as u32, bytes, interrupt, toggle);
                assert_eq!(started(pid, bytes as usize, interrupt, toggle), expected);
                count += 1;
            }
        }
    }
    count
}

/// Every value of the low 16 bits with a few of the high ones, and the other way round. An error is bit 6 (02, order 7); 000
/// says so of tokens whose bits 3 to 5 are clear or whose bit 6 is set, and of the others once N27 has altered them. These are
/// counted apart.
fn token_readers() -> (u64, u64) {
    let (mut count, mut retried) = (0, 0);
    for half in 0..=0xffffu32 {
        for other in [0, 0x8000, 0x7fff, 0xffff] {
            for raw in [half | other << 16, half << 16 | other] {
                let token = QtdToken(raw);
                let expected = (raw / 65536 % 32768, raw / 128 % 2 == 1, raw / 64 % 2 == 1);
                assert_eq!(token_read(without_retries(token)), expected);
                assert_eq!(token_read(token) == expected, raw / 8 % 8 == 0 || expected.2);
                match token_read(token) == expected {
                    true => count += 1,
                    false => retried += 1,
                }
            }
        }
    }
    (count, retried)
}

/// The bytes left, active, error.
fn token_read(token: QtdToken) -> (u32, bool, bool) {
    (token.total_bytes() as u32, token.active(), token.has_error())
}

fn plans() -> u64 {
    let mut count = 0;
    for length in 0..=16384u32 {
        for direction in DIRECTIONS {
            let (incoming, data) = (direction as u32, length > 0);
            let made = plan(direction, length as usize);
            assert_eq!(made.setup.raw(), formula::token(2, 8, false, false));
            assert_eq!(made.data.map(|t| t.raw()), data.then(|| formula::token(incoming, length, false, true)));
            let status = if incoming == 1 && data { 0 } else { 1 };
            assert_eq!(made.status.raw(), formula::token(status, 0, true, true));
            count += 1;
        }
    }
    count
}

fn splits() -> u64 {
    let limit = QTD_MAX_TOTAL_BYTES;
    let mut count = 0;
    for length in 0..=4 * limit + 1 {
        let chunks = split_bulk_lengths(length, Direction::In);
        assert_eq!(chunks.len(), length.div_ceil(limit).max(1));
        assert!(chunks.iter().enumerate().all(|(k, chunk)| *chunk == formula::chunk_length(k, length, limit)));
        assert!((chunks.len()..8).all(|k| formula::chunk_length(k, length, limit) == 0));
        count += 1;
    }
    count
}

fn descriptors() -> u64 {
    let edges = [0, 1, 4095, 4096, 4097, 8191, 8192, 8193, 12287, 12288, 12289, 16383, 16384];
    let mut count = 0;
    for base in [0u64, 0x1000_0000, (1 << 32) - 5 * 4096] {
        for offset in 0..4096 {
            for length in
                edges.into_iter().chain([(4096 - offset) % 4096, 8192 - offset, 12288 - offset, 16384 - offset])
            {
                let (address, token) = (base + offset, offset as u32);
                let words = descriptor_words(&QueueTransferDescriptor::new(QtdToken(token), address, length as usize));
                let mut expected = [1, 1, token, 0, 0, 0, 0, 0, 0, 0, 0, 0, 0];
                expected[3..8].copy_from_slice(&formula::slots(address, length));
                assert_eq!(words, expected);
                count += 1;
            }
        }
    }
    count
}

/// Every first byte, and every length.
fn setups() -> u64 {
    let mut count = 0;
    for length in 0..=16384u64 {
        for first in [0u64, 0x80, 0x21, 0xa1, length % 256] {
            let number = first | 0x0605_0403_0200;
            assert_eq!(setup_bytes(number, length as usize), (number | length << 48).to_le_bytes());
            count += 1;
        }
    }
    count
}

fn heads() -> u64 {
    let mut count = 0;
    for address in 0..128u8 {
        for number in 0..16u8 {
            for (kind, transfer_type) in KINDS.into_iter().enumerate() {
                for packet in [1u16, 2, 7, 8, 9, 63, 64, 255, 511, 512, 1023, 1024] {
                    let head = QueueHead::endpoint(address, number, transfer_type, packet);
                    let expected = formula::head(kind, address as u32, number as u32, packet as u32);
                    assert_eq!(words_of_head(&head), expected);
                    count += 1;
                }
            }
        }
    }
    for packet in 1..=1024u16 {
        let head = QueueHead::endpoint(5, 1, EndpointType::Bulk, packet);
        assert_eq!(words_of_head(&head), formula::head(2, 5, 1, packet as u32));
        count += 1;
    }
    count
}

fn changes() -> u64 {
    let mut endpoint = an_endpoint();
    let mut count = 0;
    for value in 0..=255u8 {
        for word in [0, 0xffff_ffff, 0xf200_2105, 0x5555_5555, 0xaaaa_aaaa] {
            endpoint.qh.modify_cpu(|qh| qh.endpoint_chars = word);
            endpoint.set_max_packet_size(value);
            assert_eq!(endpoint.qh.read_cpu().endpoint_chars, word & !(0x7ff << 16) | value.max(8) as u32 * 65536);
            count += 1;
            if value < 128 {
                endpoint.qh.modify_cpu(|qh| qh.endpoint_chars = word);
                endpoint.set_device_address(value);
                assert_eq!(endpoint.qh.read_cpu().endpoint_chars, word - word % 128 + value as u32);
                count += 1;
            }
        }
    }
    count
}

/// 000's own test, with FRINDEX from outside its 14 bits too.
fn distances() -> u64 {
    let endpoint = an_endpoint();
    let mut count = 0;
    for start in 0..16384u32 {
        for distance in (0..16).chain([8191, 8192, 16382, 16383]) {
            regs::set(regs::FRINDEX, start + distance + 16384 * (distance % 5));
            let passed = endpoint.schedule.unlink_completed(UnlinkBoundary::Periodic(start));
            assert_eq!(passed, distance >= 9);
            count += 1;
        }
    }
    count
}

fn port_readings() -> u64 {
    for raw in 0..=0xffffu32 {
        let status = EhciPortStatus::from_raw(raw);
        assert_eq!(status.is_high_speed_device_ready(), raw % 2 == 1 && raw / 4 % 2 == 1);
        assert_eq!((status.connected(), status.enabled()), (raw % 2 == 1, raw / 4 % 2 == 1));
    }
    65536
}

/// After 2^64 - 1 comes 1.
fn ids() -> u64 {
    let mut endpoint = an_endpoint();
    for (id, after) in [(1, 2), (u64::MAX - 1, u64::MAX), (u64::MAX, 1)] {
        endpoint.next_request_id = id;
        assert_eq!((endpoint.allocate_request_id().raw(), endpoint.next_request_id), (id, after));
    }
    3
}

// ---- the port's lines

/// Of a record: a function's number and what it is given, 64 bits each.
const RECORD: usize = 5 * 8;

/// Holds what `leaf_checks` printed of its records, a line of each, to 000's functions. False: one differs, or none is held.
pub fn hold(records: &[u8], text: &str) -> bool {
    let lines: Vec<&str> = text.lines().collect();
    if records.len() != RECORD * lines.len() {
        println!("{} bytes of records, {} lines: a record has {RECORD} bytes and one line", records.len(), lines.len());
        return false;
    }
    let (mut equal, mut differ, mut alone, mut retried) = (0, 0, 0, 0);
    for (record, line) in records.chunks(RECORD).zip(lines) {
        let number = |i: usize| u64::from_le_bytes(record[8 * i..][..8].try_into().unwrap());
        match said(number(0), [1, 2, 3, 4].map(number)) {
            None => alone += 1,
            Some(words) if line_of(number(0), &words) == line && altered(number(0), number(1)) => retried += 1,
            Some(words) if line_of(number(0), &words) == line => equal += 1,
            Some(words) => {
                println!("differs: {line}\n    000: {}", line_of(number(0), &words));
                differ += 1;
            }
        }
    }
    println!("{equal} lines of leaf_checks equal to 000, {differ} differ, {alone} have nothing in 000 to be held to");
    println!("{retried} are of a token with bits 3 to 5 and not 6, equal to 000 once these are taken out (N27)");
    differ == 0 && equal + retried > 0
}

/// A reading of a token that 000 takes for an error and 02, order 7, does not.
fn altered(function: u64, given: u64) -> bool {
    let token = QtdToken(given as u32);
    function == 4 && without_retries(token) != token
}

fn line_of(function: u64, words: &[u32]) -> String {
    let words: String = words.iter().map(|word| format!("{word:08x} ")).collect();
    format!("{function:08x} {words}")
}

/// What 000's own function says to a record; of a token's reading (4) with N27, and bit 3, which 000 does not read (02, order
/// 7), beside it. It has none for the bits of any word (1), a list of writes (17), the places
/// of a head's words (19, K1) and a limit of whole packets (20: 02, order 4).
fn said(function: u64, given: [u64; 4]) -> Option<Vec<u32>> {
    match function {
        1 | 17 | 19 | 20 => None,
        7 => chunked(given),
        9 => one_chunk(given),
        10 => descriptor(given),
        2..=8 => Some(token_words(function, given)),
        11..=15 => Some(head_words(function, given)),
        16 => Some(vec![EhciRegisters::port_offset(given[0] as u8) as u32]),
        18 => Some(tables()),
        _ => panic!("a record has the function {function}, which is not known here"),
    }
}

fn token_words(function: u64, [a, b, c, d]: [u64; 4]) -> Vec<u32> {
    let (token, size, flag) = (QtdToken(a as u32), b as usize, c == 1);
    match function {
        2 => vec![QtdToken::new(PIDS[a as usize], size).raw(), started(PIDS[a as usize], size, flag, d == 1)],
        3 => [
            token.with_error_counter(b as u8),
            token.with_active(flag),
            token.with_interrupt_on_complete(flag),
            token.with_data_toggle(flag),
        ]
        .map(QtdToken::raw)
        .to_vec(),
        4 => {
            let (left, active, error) = token_read(without_retries(token));
            vec![left, active as u32, error as u32, token.raw() >> 3 & 1]
        }
        5 => stages(DIRECTIONS[a as usize], size),
        6 => vec![started(PIDS[a as usize], size, flag, false)],
        _ => {
            let status = EhciPortStatus::from_raw(a as u32);
            [status.connected(), status.enabled(), status.is_high_speed_device_ready()].map(u32::from).to_vec()
        }
    }
}

/// The tokens of a control request's stages.
fn stages(direction: Direction, length: usize) -> Vec<u32> {
    let made = plan(direction, length);
    [Some(made.setup), made.data, Some(made.status)].into_iter().flatten().map(QtdToken::raw).collect()
}

/// 000's list. It splits by its own limit (N9), so it is asked at that one, and at another where one chunk will do.
fn list(length: u64, limit: u64) -> Option<Vec<u32>> {
    let own = QTD_MAX_TOTAL_BYTES as u64;
    let whole = length <= limit.min(own);
    let asked = whole || (limit == own && length <= 1 << 32);
    asked.then(|| split_bulk_lengths(length as usize, Direction::Out).into_iter().map(|chunk| chunk as u32).collect())
}

/// The need, the chunks' number, and the list, as far as it is shown: 0 after its last. 000 has no isochronous request.
fn chunked([kind, length, limit, shown]: [u64; 4]) -> Option<Vec<u32>> {
    if KINDS[kind as usize] == EndpointType::Isochronous {
        return None;
    }
    let mut chunks = list(length, limit)?;
    let need = if kind == 0 { stages(Direction::Out, length as usize).len() } else { chunks.len() };
    let mut words = vec![need as u32, chunks.len() as u32];
    chunks.resize(shown as usize, 0);
    words.extend(chunks);
    Some(words)
}

/// One of the list, by its place; 0 after its last.
fn one_chunk([k, length, limit, _]: [u64; 4]) -> Option<Vec<u32>> {
    let chunks = list(length, limit)?;
    Some(vec![usize::try_from(k).ok().and_then(|k| chunks.get(k).copied()).unwrap_or(0)])
}

/// An empty one has no next. For a buffer that leaves 32 bits the port has none, and 000 does not ask (N11).
fn descriptor([token, address, length, next]: [u64; 4]) -> Option<Vec<u32>> {
    if length > 0 && address.checked_add(length).is_none_or(|end| end > 1 << 32) {
        return None;
    }
    let mut made = QueueTransferDescriptor::new(QtdToken(token as u32), address, length as usize);
    if length > 0 {
        made.set_next(Some(next as u32));
    }
    Some(descriptor_words(&made).to_vec())
}

fn head_words(function: u64, [a, b, c, d]: [u64; 4]) -> Vec<u32> {
    let changed = |change: fn(&mut EhciEndpoint, u8)| {
        let mut endpoint = an_endpoint();
        endpoint.qh.modify_cpu(|qh| qh.endpoint_chars = a as u32);
        change(&mut endpoint, b as u8);
        vec![endpoint.qh.read_cpu().endpoint_chars]
    };
    match function {
        11 => setup_bytes(a, b as usize).map(u32::from).to_vec(),
        12 => words_of_head(&QueueHead::endpoint(b as u8, c as u8, KINDS[a as usize], d as u16)).to_vec(),
        13 => {
            let links = [ehci_qh_link(a as u32), next_of(Some(a as u32)), next_of(None)];
            [&words_of_head(&QueueHead::async_head(a as u32))[..], &links].concat()
        }
        14 => changed(EhciEndpoint::set_device_address),
        _ => changed(EhciEndpoint::set_max_packet_size),
    }
}

fn next_of(address: Option<u32>) -> u32 {
    let mut qtd = QueueTransferDescriptor::terminated();
    qtd.set_next(address);
    qtd.next_qtd
}

const OFFSETS: [usize; 9] =
    [USBCMD, USBSTS, USBINTR, FRINDEX, CTRLDSSEGMENT, PERIODICLISTBASE, ASYNCLISTADDR, CONFIGFLAG, PORTSC_BASE];
const COMMANDS: [u32; 5] =
    [USBCMD_RUN_STOP, USBCMD_HCRESET, USBCMD_PERIODIC_ENABLE, USBCMD_ASYNC_ENABLE, USBCMD_INT_ASYNC_ADVANCE_DOORBELL];
const STATUSES: [u32; 7] = [
    USBSTS_USBINT,
    USBSTS_USBERRINT,
    USBSTS_PORT_CHANGE,
    USBSTS_FRAME_LIST_ROLLOVER,
    USBSTS_HOST_SYSTEM_ERROR,
    USBSTS_INTERRUPT_ASYNC_ADVANCE,
    USBSTS_HALTED,
];
const INTERRUPTS: [u32; 4] = [USBINTR_USBINT, USBINTR_USBERRINT, USBINTR_PORT_CHANGE, USBINTR_ASYNC_ADVANCE];
const PORT_BITS: [u32; 8] = [
    EhciPortStatus::CURRENT_CONNECT,
    PORT_CONNECT_CHANGE,
    EhciPortStatus::PORT_ENABLED,
    PORT_ENABLE_CHANGE,
    PORT_OVER_CURRENT_CHANGE,
    PORT_RESET,
    PORT_POWER,
    PORT_OWNER,
];

/// The registers' offsets, then the bits of USBCMD, USBSTS, USBINTR and PORTSC.
fn tables() -> Vec<u32> {
    [&OFFSETS.map(|offset| offset as u32)[..], &COMMANDS, &STATUSES, &INTERRUPTS, &PORT_BITS].concat()
}

#[cfg(test)]
mod tests {
    use super::*;

    /// Of each function the first line that is held, with the last digit of its last word changed.
    #[test]
    fn a_changed_word_is_found() {
        let _alone = crate::ALONE.lock().unwrap();
        let stored =
            |name| std::fs::read(format!("{}/../crates/leaf_checks/{name}", env!("CARGO_MANIFEST_DIR"))).unwrap();
        let (records, text) = (stored("stdin"), String::from_utf8(stored("stdout")).unwrap());
        assert!(hold(&records, &text));
        let mut found = std::collections::BTreeSet::new();
        for (record, line) in records.chunks(RECORD).zip(text.lines()) {
            let mut wrong = line.trim_end().to_string();
            let digit = wrong.pop().unwrap();
            wrong += if digit == '0' { "1 " } else { "0 " };
            if hold(record, line) && found.insert(record[0]) {
                assert!(!hold(record, &wrong));
            }
        }
        assert_eq!(found.into_iter().collect::<Vec<_>>(), [2, 3, 4, 5, 6, 7, 8, 9, 10, 11, 12, 13, 14, 15, 16, 18]);
        assert!(!hold(&records[RECORD..], &text));
        assert!(!hold(&[], ""));
        // bits 3 and 5: no error (N27), which 000 itself would say, and bit 3
        let token: Vec<u8> = [4, 0x0007_0028, 0, 0, 0].iter().flat_map(|number: &u64| number.to_le_bytes()).collect();
        let line = |error, retried| line_of(4, &[7, 0, error, retried]);
        assert!(hold(&token, &line(0, 1)) && !hold(&token, &line(1, 1)) && !hold(&token, &line(0, 0)));
    }
}
