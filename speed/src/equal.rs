//! Compares the readers on whole and damaged packets.

#[cfg(feature = "ours")]
use crate::ours;
use crate::packets::{any_packet, Random};
use crate::reader::{fold_lean, fold_value, read, read_into, Listed, Message, MOST};

/// How often each answer was met: Move, Reply, Check, refusals 3 to 6.
#[derive(Default)]
pub struct Answers {
    counts: [u64; 7],
}

impl Answers {
    const NAMES: [&'static str; 7] = [
        "Move",
        "Reply",
        "Check",
        "refused by 3",
        "refused by 4",
        "refused by 5",
        "refused by 6",
    ];

    fn add(&mut self, message: &Message) {
        let which = match message {
            Message::Move(_) => 0,
            Message::Reply(_) => 1,
            Message::Check { .. } => 2,
            Message::Refused(row) => usize::from(*row),
        };
        self.counts[which] += 1;
    }

    pub fn print(&self) {
        let all: u64 = self.counts.iter().sum();
        for (name, count) in Self::NAMES.iter().zip(self.counts) {
            let share = count as f64 * 100.0 / all.max(1) as f64;
            println!("{name}: {count} ({share:.1} %)");
        }
    }

    #[cfg(test)]
    pub fn least_share(&self) -> f64 {
        let all: u64 = self.counts.iter().sum();
        let least = self.counts.iter().min().copied().unwrap_or(0);
        least as f64 / all.max(1) as f64
    }
}

/// Where the readers differ on one packet, if they do.
pub fn difference(packet: &[u8], answers: &mut Answers) -> Option<String> {
    let reading = read(packet);
    let mut listed = [Listed::BLANK; MOST];
    let message = read_into(packet, &mut listed);
    answers.add(&message);
    if message != reading.message {
        return Some(format!("by value {:?}\nlean {message:?}", reading.message));
    }
    let count = match message {
        Message::Move(fields) => usize::from(fields.count),
        _ => 0,
    };
    if listed[..count] != reading.listed[..count] {
        return Some(format!("by value {:?}\nlean {listed:?}", reading.listed));
    }
    if reading.listed[count..] != [Listed::BLANK; MOST][count..] {
        return Some(format!("by value, not blank: {:?}", reading.listed));
    }
    let value = fold_value(packet);
    let lean = fold_lean(packet, &mut listed);
    if value != lean {
        return Some(format!("by value {value}\nlean {lean}"));
    }
    #[cfg(feature = "ours")]
    {
        let ours = ours::fold(packet);
        if ours != value {
            return Some(format!("ours {ours}\nby value {value}, {reading:?}"));
        }
    }
    None
}

/// Compares on `count` packets; stops at the first difference.
pub fn compare(count: u64, seed: u64) -> Result<Answers, String> {
    let mut random = Random::new(seed);
    let mut answers = Answers::default();
    for number in 0..count {
        let packet = any_packet(&mut random);
        if let Some(text) = difference(&packet, &mut answers) {
            let hex: String = packet.iter().map(|byte| format!("{byte:02x}")).collect();
            return Err(format!("packet {number} differs: {hex}\n{text}"));
        }
    }
    Ok(answers)
}
