//! Turns the readable text of a trace into its bytes.
//!
//! `#` starts a comment to the end of the line. A line that starts in column 1
//! begins a record:
//!
//! ```text
//! start TIME OUTBOUND INBOUND LIFETIME ADDRESS
//! message MARK BUFFER NONCE
//! arrival SIZE
//! send SIZE
//! tick TIME BUFFER
//! announcement BUFFER INBOUND KEYMAT
//! ```
//!
//! Numbers are decimal, or hexadecimal after `0x`; every `_` in one is
//! skipped. MARK is `authentic` or `forged`. The eight nonces are NONCE and the
//! seven numbers after it, wrapping. Indented lines after `message` are the
//! packet: hex digits in groups, an even number in each. Each indented line
//! after `announcement` is an entry of the list:
//!
//! ```text
//! LOCATOR_TYPE TRAFFIC_TYPE LIFETIME P ADDRESS
//! ```

use std::net::Ipv6Addr;

/// The largest section that a 16-bit count can announce.
const SECTION_LIMIT: usize = 65_535;

/// The nonces that each message brings.
const NONCES: u64 = 8;

const MESSAGE: u64 = 1;
const ANNOUNCEMENT: u64 = 5;

/// The three sections of one record.
struct Record {
    numbers: Vec<u64>,
    bytes: Vec<u8>,
    nonces: Vec<u8>,
}

impl Record {
    /// A record of numbers alone: the call's code, then its arguments.
    fn plain(numbers: Vec<u64>) -> Record {
        Record {
            numbers,
            bytes: Vec::new(),
            nonces: Vec::new(),
        }
    }

    fn call(&self) -> u64 {
        self.numbers[0]
    }

    fn write(&self, trace: &mut Vec<u8>) {
        let numbers: Vec<u8> = self.numbers.iter().flat_map(|n| n.to_be_bytes()).collect();
        write_section(&numbers, trace);
        write_section(&self.bytes, trace);
        write_section(&self.nonces, trace);
    }
}

/// Writes a section after its count of bytes. No section passes the limit:
/// packets and lists are held to it line by line, the others are short.
fn write_section(section: &[u8], trace: &mut Vec<u8>) {
    let count = section.len() as u16;
    trace.extend_from_slice(&count.to_be_bytes());
    trace.extend_from_slice(section);
}

/// The trace that the text describes, or the line number and what is wrong.
pub fn assemble(text: &str) -> Result<Vec<u8>, String> {
    let mut records = Vec::new();
    for (index, line) in text.lines().enumerate() {
        let code = line.split('#').next().unwrap_or("");
        read_line(code, &mut records).map_err(|why| format!("line {}: {why}", index + 1))?;
    }
    let mut trace = Vec::new();
    for record in &records {
        record.write(&mut trace);
    }
    Ok(trace)
}

/// Takes one line, its comment cut off, into the records.
fn read_line(code: &str, records: &mut Vec<Record>) -> Result<(), String> {
    if code.trim().is_empty() {
        return Ok(());
    }
    if code.starts_with(char::is_whitespace) {
        return match records.last_mut() {
            Some(record) if record.call() == MESSAGE => read_packet_line(code, record),
            Some(record) if record.call() == ANNOUNCEMENT => read_entry(code, record),
            _ => Err("indented line that follows no message or announcement".to_string()),
        };
    }
    let words: Vec<&str> = code.split_whitespace().collect();
    records.push(read_call(&words)?);
    Ok(())
}

/// Reads the line that begins a record.
fn read_call(words: &[&str]) -> Result<Record, String> {
    match words {
        ["start", time, outbound, inbound, lifetime, address] => {
            read_start([time, outbound, inbound, lifetime], address)
        }
        ["message", mark, buffer, nonce] => read_message(mark, buffer, nonce),
        ["arrival", size] => Ok(Record::plain(vec![2, number(size)?])),
        ["send", size] => Ok(Record::plain(vec![3, number(size)?])),
        ["tick", time, buffer] => Ok(Record::plain(vec![4, number(time)?, number(buffer)?])),
        ["announcement", buffer, inbound, keymat] => Ok(Record::plain(vec![
            ANNOUNCEMENT,
            number(buffer)?,
            number(inbound)?,
            number(keymat)?,
        ])),
        [word @ ("start" | "message" | "arrival" | "send" | "tick" | "announcement"), ..] => {
            Err(format!("wrong number of words after `{word}`"))
        }
        _ => Err(format!("unknown call `{}`", words[0])),
    }
}

fn read_start(arguments: [&str; 4], address: &str) -> Result<Record, String> {
    let mut numbers = vec![0];
    for argument in arguments {
        numbers.push(number(argument)?);
    }
    let mut record = Record::plain(numbers);
    record.bytes = read_address(address)?.to_vec();
    Ok(record)
}

fn read_address(word: &str) -> Result<[u8; 16], String> {
    let address: Result<Ipv6Addr, _> = word.parse();
    let address = address.map_err(|_| format!("`{word}` is not an IPv6 address"))?;
    Ok(address.octets())
}

fn read_message(mark: &str, buffer: &str, nonce: &str) -> Result<Record, String> {
    let authentic = match mark {
        "authentic" => 1,
        "forged" => 0,
        _ => return Err(format!("`{mark}` is neither `authentic` nor `forged`")),
    };
    let mut record = Record::plain(vec![MESSAGE, authentic, number(buffer)?]);
    let first = number(nonce)?;
    record.nonces = (0..NONCES)
        .flat_map(|step| first.wrapping_add(step).to_be_bytes())
        .collect();
    Ok(record)
}

/// Adds an entry to the list of an announcement: its numbers stand before the
/// last two, inbound SPI and KEYMAT Index.
fn read_entry(code: &str, record: &mut Record) -> Result<(), String> {
    let words: Vec<&str> = code.split_whitespace().collect();
    let [locator_type, traffic, lifetime, p, address] = words[..] else {
        return Err("an entry has five words".to_string());
    };
    for word in [locator_type, traffic, lifetime, p] {
        let place = record.numbers.len() - 2;
        record.numbers.insert(place, number(word)?);
    }
    record.bytes.extend(read_address(address)?);
    if record.numbers.len() * 8 > SECTION_LIMIT {
        return Err(format!("list longer than {SECTION_LIMIT} bytes"));
    }
    Ok(())
}

/// Adds a line of packet bytes to the message it belongs to.
fn read_packet_line(code: &str, record: &mut Record) -> Result<(), String> {
    for group in code.split_whitespace() {
        read_group(group, &mut record.bytes)?;
    }
    if record.bytes.len() > SECTION_LIMIT {
        return Err(format!("packet longer than {SECTION_LIMIT} bytes"));
    }
    Ok(())
}

/// Adds the bytes of one group of hex digits.
fn read_group(group: &str, bytes: &mut Vec<u8>) -> Result<(), String> {
    let mut digits = Vec::new();
    for digit in group.chars() {
        let value = digit
            .to_digit(16)
            .ok_or_else(|| format!("`{digit}` in `{group}` is not a hex digit"))?;
        digits.push(value as u8);
    }
    if digits.len() % 2 != 0 {
        return Err(format!("odd number of hex digits in `{group}`"));
    }
    bytes.extend(digits.chunks(2).map(|pair| pair[0] * 16 + pair[1]));
    Ok(())
}

/// Reads a decimal or `0x` number of at most 64 bits.
fn number(word: &str) -> Result<u64, String> {
    let (text, radix) = match word.strip_prefix("0x") {
        Some(rest) => (rest, 16),
        None => (word, 10),
    };
    let digits = text.replace('_', "");
    if digits.is_empty() || !digits.chars().all(|digit| digit.is_digit(radix)) {
        return Err(format!("`{word}` is not a number"));
    }
    u64::from_str_radix(&digits, radix).map_err(|_| format!("`{word}` is over 64 bits"))
}

#[cfg(test)]
mod tests {
    use super::*;

    /// One section: its count and its bytes.
    fn section(bytes: &[u8]) -> Vec<u8> {
        let mut out = (bytes.len() as u16).to_be_bytes().to_vec();
        out.extend_from_slice(bytes);
        out
    }

    fn record(numbers: &[u64], bytes: &[u8], nonces: &[u64]) -> Vec<u8> {
        let flat =
            |list: &[u64]| -> Vec<u8> { list.iter().flat_map(|n| n.to_be_bytes()).collect() };
        [
            section(&flat(numbers)),
            section(bytes),
            section(&flat(nonces)),
        ]
        .concat()
    }

    fn fault(text: &str) -> String {
        assemble(text).expect_err("the text should be refused")
    }

    #[test]
    fn empty_text_is_an_empty_trace() {
        assert_eq!(assemble(""), Ok(vec![]));
        assert_eq!(
            assemble("\n  \n# only a comment\n   # another\n"),
            Ok(vec![])
        );
    }

    #[test]
    fn plain_calls() {
        let text = "arrival 1500 # bytes\nsend 0x10\r\ntick 1_000 320";
        let want = [
            record(&[2, 1500], &[], &[]),
            record(&[3, 16], &[], &[]),
            record(&[4, 1000, 320], &[], &[]),
        ];
        assert_eq!(assemble(text), Ok(want.concat()));
    }

    #[test]
    fn exact_bytes_of_a_tick() {
        let want = vec![
            0, 24, 0, 0, 0, 0, 0, 0, 0, 4, 0, 0, 0, 0, 0, 0, 1, 2, 0, 0, 0, 0, 0, 0, 1, 64, 0, 0,
            0, 0,
        ];
        assert_eq!(assemble("tick 258 320"), Ok(want));
    }

    #[test]
    fn start_carries_the_address() {
        let address = [0x20, 1, 0x0d, 0xb8, 0, 0, 0, 0, 0, 0, 0, 0, 0, 0, 0, 0x10];
        let want = record(&[0, 100, 0x2002, 0x1001, 60], &address, &[]);
        assert_eq!(
            assemble("start 100 0x2002 0x1001 60 2001:db8::10"),
            Ok(want)
        );
        let mapped = [0, 0, 0, 0, 0, 0, 0, 0, 0, 0, 0xff, 0xff, 192, 0, 2, 1];
        let want = record(&[0, 0, 1, 2, 3], &mapped, &[]);
        assert_eq!(assemble("start 0 1 2 3 ::ffff:192.0.2.1"), Ok(want));
    }

    #[test]
    fn message_gathers_its_packet_lines() {
        let text = "message authentic 384 5\n  3b07 10 # header\n\n\t2A\nmessage forged 0 0\n";
        let want = [
            record(
                &[1, 1, 384],
                &[0x3b, 7, 0x10, 0x2a],
                &[5, 6, 7, 8, 9, 10, 11, 12],
            ),
            record(&[1, 0, 0], &[], &[0, 1, 2, 3, 4, 5, 6, 7]),
        ];
        assert_eq!(assemble(text), Ok(want.concat()));
    }

    #[test]
    fn announcement_gathers_its_entries() {
        let text = concat!(
            "announcement 256 0x3003 128\n",
            "  1 0 600 1 2001:db8::1 # P\n\t0 2 1 0 ::2\n",
            "announcement 0 1 0\n",
        );
        let mut addresses = vec![0x20, 1, 0x0d, 0xb8, 0, 0, 0, 0, 0, 0, 0, 0, 0, 0, 0, 1];
        addresses.extend([0; 15]);
        addresses.push(2);
        let numbers = [5, 256, 1, 0, 600, 1, 0, 2, 1, 0, 0x3003, 128];
        let want = [
            record(&numbers, &addresses, &[]),
            record(&[5, 0, 1, 0], &[], &[]),
        ];
        assert_eq!(assemble(text), Ok(want.concat()));
    }

    #[test]
    fn list_length_limit() {
        let entries = |count| "  0 0 1 0 ::2\n".repeat(count);
        let most = (SECTION_LIMIT / 8 - 4) / 4;
        let text = format!("announcement 0 1 0\n{}", entries(most));
        let length = 2 + 32 + 32 * most + 2 + 16 * most + 2;
        assert_eq!(assemble(&text).unwrap().len(), length);
        let text = format!("announcement 0 1 0\n{}", entries(most + 1));
        let line = most + 2;
        let want = format!("line {line}: list longer than 65535 bytes");
        assert_eq!(fault(&text), want);
    }

    #[test]
    fn nonces_wrap() {
        let top = u64::MAX;
        let want = record(&[1, 1, 384], &[], &[top - 1, top, 0, 1, 2, 3, 4, 5]);
        assert_eq!(
            assemble("message authentic 384 0xffff_ffff_ffff_fffe"),
            Ok(want)
        );
    }

    #[test]
    fn packet_length_limit() {
        let line = format!("  {}\n", "ab".repeat(SECTION_LIMIT));
        let trace = assemble(&format!("message authentic 384 0\n{line}")).unwrap();
        assert_eq!(trace.len(), 2 + 24 + 2 + SECTION_LIMIT + 2 + 64);
        let text = format!("message authentic 384 0\n{line}\n  00\n");
        assert_eq!(fault(&text), "line 4: packet longer than 65535 bytes");
    }

    #[test]
    fn number_limits() {
        assert_eq!(number("18446744073709551615"), Ok(u64::MAX));
        assert_eq!(number("0xFFFFFFFFFFFFFFFF"), Ok(u64::MAX));
        assert!(number("18446744073709551616")
            .unwrap_err()
            .contains("over 64 bits"));
        assert!(number("0x1_0000_0000_0000_0000")
            .unwrap_err()
            .contains("over 64 bits"));
        for bad in ["", "_", "0x", "0x_", "+1", "-1", "1.5", "12f", "0xg", "0X1"] {
            assert!(
                number(bad).unwrap_err().contains("is not a number"),
                "{bad}"
            );
        }
    }

    #[test]
    fn faults_name_the_line_and_the_reason() {
        assert_eq!(fault("\n# note\nleap 3\n"), "line 3: unknown call `leap`");
        assert_eq!(fault("send"), "line 1: wrong number of words after `send`");
        for text in ["tick 1", "tick 1 2 3"] {
            assert_eq!(fault(text), "line 1: wrong number of words after `tick`");
        }
        assert_eq!(fault("tick 1 x"), "line 1: `x` is not a number");
        assert_eq!(fault("send x"), "line 1: `x` is not a number");
        assert_eq!(
            fault("start 1 2 3 4 host"),
            "line 1: `host` is not an IPv6 address"
        );
        assert_eq!(
            fault("message true 384 0"),
            "line 1: `true` is neither `authentic` nor `forged`"
        );
        assert_eq!(
            fault("announcement 1 2"),
            "line 1: wrong number of words after `announcement`"
        );
        for entry in ["1", "0 0 1 ::1", "0 0 1 0 0 ::1"] {
            let text = format!("announcement 1 2 3\n {entry}");
            assert_eq!(fault(&text), "line 2: an entry has five words");
        }
        let text = "announcement 1 2 3\n 0 0 1 0 1";
        assert_eq!(fault(text), "line 2: `1` is not an IPv6 address");
    }

    #[test]
    fn indented_lines_need_a_message_or_an_announcement() {
        let reason = "indented line that follows no message or announcement";
        for (line, text) in [
            (1, "  00"),
            (2, "send 1\n  00"),
            (2, "start 1 2 3 4 2001:db8::1\n  00"),
        ] {
            assert_eq!(fault(text), format!("line {line}: {reason}"));
        }
    }

    #[test]
    fn bad_hex() {
        let after = |line: &str| fault(&format!("message authentic 384 0\n {line}"));
        assert_eq!(after("00 abc"), "line 2: odd number of hex digits in `abc`");
        assert_eq!(after("0g"), "line 2: `g` in `0g` is not a hex digit");
    }
}
