//! The random mixture: lines of a verb without end, sound ones, ones with a fault of the
//! catalogue at some spot, ones with bytes changed, and a few that break the grammar.

use crate::body::{number_of_part, read_body};
use crate::bytes::CTB2;
use crate::edition::Edition;
use crate::gen::broken::OVERRIDES;
use crate::gen::checks::{somehow_after, Ask, Pair};
use crate::gen::chords::{some_chord, some_part};
use crate::gen::cntts::{at_position, with_cntt};
use crate::gen::ctb2::{self, SETS, TABLE_BOUNDS};
use crate::gen::ctb2_bodies::other;
use crate::gen::ctb2_faults;
use crate::gen::dice::Dice;
use crate::gen::draft::{body_bytes, Draft};
use crate::gen::entries;
use crate::gen::faults::{further, principal, Fault, GREAT_LENGTHS};
use crate::gen::file_checks::somehow_around;
use crate::gen::file_edits;
use crate::gen::locks::{some_lock, some_override};
use crate::gen::lookups::every_record;
use crate::gen::narrow;
use crate::gen::positions::{number_somehow, some_position, spoil};
use crate::gen::sections;
use crate::gen::sites;
use crate::gen::sound;
use crate::gen::spell::{rec, spell, spell_oddly, Line};
use crate::group::Group;
use crate::ranges::{
    allowed, Allowed, GUITAR, HIGHEST_MIDDLE, HIGH_LIMIT, LOWEST_MIDDLE, LOW_LIMIT, ONLY_SET, RULE,
};
use crate::record::{Record, READ_ONLY};
use crate::style::{BODY_LIMIT, FILE_LIMIT};
use crate::write::group_bytes;
use std::collections::HashSet;

pub struct Mixture {
    dice: Dice,
    faults: Vec<Fault>,
    ctb2_faults: Vec<Fault>,
    beside: Vec<Fault>,
}

/// The edition of a body's groups, the first where none has records.
fn edition_of(groups: &[Draft]) -> Edition {
    let of_second = |group: &Draft| !group.numbers(CTB2).is_empty();
    if groups.iter().any(of_second) {
        Edition::Second
    } else {
        Edition::First
    }
}

/// What stands in a body for a group number and a source channel.
fn record_of(groups: &[Group], number: u64, channel: u8) -> Option<Record> {
    let mut records = groups.get(number as usize)?.records.iter();
    let placed = records.find(|placed| placed.record.source_channel() == channel)?;
    Some(placed.record)
}

impl Mixture {
    pub fn new(dice: Dice) -> Mixture {
        let mut faults = principal();
        faults.extend(further());
        let mut ctb2_faults = ctb2_faults::principal();
        ctb2_faults.extend(ctb2_faults::further());
        Mixture {
            dice,
            faults,
            ctb2_faults,
            beside: ctb2_faults::beside(),
        }
    }

    /// A line of one of these verbs.
    pub fn line(&mut self, verbs: &[&'static str]) -> Line {
        let verb = self.dice.pick(verbs);
        let mut line = match verb {
            "find" => self.find(),
            "body" => format!("body {}", self.body_token()),
            "group" => self.group(),
            "voice" => self.voice(),
            "plays" => self.plays(),
            "place" => self.place(),
            "write" => self.write(),
            "edit" => self.edit(),
            "screen" => self.screen(),
            "part" => self.part(),
            "where" => self.place_of_group(),
            "channel" => self.channel(),
            "checked" => self.checked(),
            "checkedfile" => self.checkedfile(),
            "section" => self.section(),
            "entry" => self.entry(),
            "site" => self.site(),
            "editfile" => self.editfile(),
            _ => self.salvage(),
        }
        .into_bytes();
        if self.dice.percent(2) {
            self.scratch(&mut line, verb.len() + 1);
        }
        line
    }

    /// Changes, drops or adds a character behind the verb.
    fn scratch(&mut self, line: &mut Line, start: usize) {
        const LETTERS: &[u8] = b" -+*:0123456789abcdefAF\tx";
        let place = self.dice.between(start, line.len());
        let letter = self.dice.pick(LETTERS);
        match self.dice.below(3) {
            0 if place < line.len() => line[place] = letter,
            1 if place < line.len() => drop(line.remove(place)),
            _ => line.insert(place, letter),
        }
    }

    fn spelled(&mut self, bytes: &[u8]) -> String {
        if bytes.len() < 4_000 && self.dice.percent(5) {
            return spell_oddly(&mut self.dice, bytes);
        }
        spell(bytes)
    }

    /// A body: sound, with a fault, with names twice, or with changed bytes; at times its groups
    /// are of both editions.
    pub fn body(&mut self) -> Vec<u8> {
        let mut groups = if self.dice.percent(8) {
            sound::body_of(&mut self.dice, &[Edition::First, Edition::Second])
        } else {
            sound::body(&mut self.dice)
        };
        match self.dice.below(100) {
            0..=44 => (),
            45..=69 => self.put_fault(&mut groups),
            70..=74 => self.repeat_name(&mut groups),
            75..=79 => {
                self.put_fault(&mut groups);
                self.put_fault(&mut groups);
            }
            _ => {
                let mut bytes = body_bytes(&groups);
                for _ in 0..self.dice.between(1, 3) {
                    self.change(&mut bytes);
                }
                return bytes;
            }
        }
        body_bytes(&groups)
    }

    fn body_token(&mut self) -> String {
        let mut body = self.body();
        self.fill(&mut body, BODY_LIMIT);
        self.spelled(&body)
    }

    /// Once in a while fills up to a limit, or to one more or less.
    fn fill(&mut self, bytes: &mut Vec<u8>, limit: usize) {
        if self.dice.below(500) == 0 {
            let length = limit - 1 + self.dice.below(3);
            bytes.resize(length, 0);
        }
    }

    /// A body that is mostly sound, for questions that come after it.
    fn asked_body(&mut self) -> Vec<u8> {
        let mut body = if self.dice.percent(25) {
            self.body()
        } else {
            body_bytes(&sound::body(&mut self.dice))
        };
        self.fill(&mut body, BODY_LIMIT);
        body
    }

    fn put_fault(&mut self, groups: &mut [Draft]) {
        if groups.is_empty() {
            return;
        }
        let edition = edition_of(groups);
        let number = self.dice.below(groups.len());
        if self.dice.percent(50) {
            groups[number] = sound::full_group(&mut self.dice, edition, &mut HashSet::new());
        }
        if groups[number].children.is_empty() {
            return;
        }
        let faults = match (edition, self.dice.below(10)) {
            (Edition::First, 0) => &self.beside,
            (Edition::Second, 0..=6) => &self.ctb2_faults,
            _ => &self.faults,
        };
        let fault = self.dice.below(faults.len());
        let spot = self.dice.below(3);
        faults[fault](&mut groups[number], spot);
    }

    /// Gives a later group a name of an earlier one, alone or behind its own.
    fn repeat_name(&mut self, groups: &mut [Draft]) {
        if groups.len() < 2 {
            return;
        }
        let later = self.dice.between(1, groups.len() - 1);
        let earlier = self.dice.below(later);
        let text = groups[earlier].children[0].payload.clone();
        let name = text.rsplit(|&byte| byte == b',').next().unwrap_or(&text);
        let own = &mut groups[later].children[0].payload;
        if self.dice.percent(50) {
            own.clear();
        } else {
            own.push(b',');
        }
        own.extend(name);
    }

    /// One change of bytes, of any kind.
    pub fn change(&mut self, bytes: &mut Vec<u8>) {
        let dice = &mut self.dice;
        let place = dice.below(bytes.len() + 1);
        match dice.below(9) {
            0 => bytes.truncate(place),
            1 => bytes.insert(place, dice.byte()),
            2 if place < bytes.len() => drop(bytes.remove(place)),
            3 => bytes.extend(&b"CSEG\0\0\0\x09Sdec"[..dice.between(1, 12)]),
            4 => {
                let tag: &[u8] = dice.pick(&[b"CSEG", b"Sdec", b"Ctab", b"Cntt", b"Ctb2"]);
                bytes.splice(place..place, tag.iter().copied());
            }
            5 if place + 4 <= bytes.len() => {
                let length = dice.pick(&GREAT_LENGTHS);
                bytes[place..place + 4].copy_from_slice(&length.to_be_bytes());
            }
            _ if place < bytes.len() => {
                let byte = bytes[place];
                let values = [
                    byte ^ 0x80,
                    byte.wrapping_add(1),
                    0,
                    0xFF,
                    0x43,
                    dice.byte(),
                ];
                bytes[place] = dice.pick(&values);
            }
            _ => bytes.push(dice.byte()),
        }
    }

    fn find(&mut self) -> String {
        let file = self.file();
        format!("find {}", self.spelled(&file))
    }

    /// A style file: sound, with a length that lies, with changed bytes, or with loose ones behind.
    pub fn file(&mut self) -> Vec<u8> {
        let mut body = Vec::new();
        if self.dice.percent(30) {
            body = self.body();
        }
        self.fill(&mut body, BODY_LIMIT);
        let mut file = sound::style(&mut self.dice, &body);
        if self.dice.percent(15) && !file.sections.is_empty() {
            let number = self.dice.below(file.sections.len());
            let length = self.dice.pick(&GREAT_LENGTHS) | self.dice.below(64) as u32;
            let near = self.dice.below(40) as u32;
            file.sections[number].declared = Some(self.dice.pick(&[length, near, near, near]));
        }
        let others = file.bytes().len() - file.track.payload.len();
        self.fill(&mut file.track.payload, FILE_LIMIT - others);
        let mut bytes = file.bytes();
        if self.dice.percent(25) {
            self.change(&mut bytes);
        }
        if self.dice.percent(5) {
            let length = self.dice.between(1, 9);
            bytes.extend(vec![0x4D; length]);
        }
        bytes
    }

    /// A group number that mostly is there, and the source channels of that group.
    fn some_group(&mut self, body: &[u8]) -> (u64, Vec<u8>) {
        let groups = read_body(body).unwrap_or_default();
        if groups.is_empty() || self.dice.percent(5) {
            let count = groups.len() as u64;
            let numbers = [count, count + 1, 0, 31, 32, 4_294_967_295];
            return (self.dice.pick(&numbers), Vec::new());
        }
        let number = self.dice.below(groups.len());
        let channels = groups[number]
            .records
            .iter()
            .map(|placed| placed.record.source_channel())
            .collect();
        (number as u64, channels)
    }

    fn some_channel(&mut self, channels: &[u8]) -> u8 {
        if channels.is_empty() || self.dice.percent(8) {
            let any = self.dice.byte();
            return self.dice.pick(&[any & 15, any & 15, any, 16, 255]);
        }
        self.dice.pick(channels)
    }

    fn group(&mut self) -> String {
        let body = self.asked_body();
        let (number, channels) = self.some_group(&body);
        let count = channels.len();
        let rooms = [count, count, count + 1, count.saturating_sub(1), 16, 0, 32];
        let room = self.dice.pick(&rooms).min(32);
        format!("group {} {number} {room}", self.spelled(&body))
    }

    fn voice(&mut self) -> String {
        format!("voice {}", self.record_tokens())
    }

    fn channel(&mut self) -> String {
        format!("channel {}", self.record_tokens())
    }

    /// A body, and a group and a source channel that mostly are there.
    fn record_tokens(&mut self) -> String {
        let body = self.asked_body();
        let (number, channels) = self.some_group(&body);
        let channel = self.some_channel(&channels);
        format!("{} {number} {channel}", self.spelled(&body))
    }

    fn place_of_group(&mut self) -> String {
        let body = self.asked_body();
        let (number, _) = self.some_group(&body);
        format!("where {} {number}", self.spelled(&body))
    }

    fn part(&mut self) -> String {
        let body = self.asked_body();
        let body_token = self.spelled(&body);
        let part = if self.dice.percent(85) {
            some_part(&mut self.dice, &body)
        } else {
            self.strange_part(&body)
        };
        format!("part {body_token} {}", self.spelled(&part))
    }

    /// A name that is hardly there: any, a whole text, or one of these with a change.
    fn strange_part(&mut self, body: &[u8]) -> Vec<u8> {
        let mut part = sound::name(&mut self.dice);
        if let Some(group) = read_body(body).unwrap_or_default().last() {
            part = self.dice.pick(&[&part, group.text]).to_vec();
        }
        if self.dice.percent(30) {
            self.change(&mut part);
        }
        part
    }

    fn plays(&mut self) -> String {
        let body = self.asked_body();
        let body_token = self.spelled(&body);
        if self.dice.percent(85) {
            return format!("plays {body_token} {}", some_chord(&mut self.dice, &body));
        }
        let part = self.strange_part(&body);
        let any = self.dice.byte();
        let root = self.dice.pick(&[any % 12, 11, 12, any]);
        let chord_type = self.dice.pick(&[any % 34, 33, 34, any]);
        format!(
            "plays {body_token} {} {root} {chord_type}",
            self.spelled(&part)
        )
    }

    /// A record of an edition that is mostly sound, of any position.
    fn record(&mut self, edition: Edition) -> Record {
        let channel = self.dice.below(16) as u8;
        let mut record = match edition {
            Edition::First => sound::record(&mut self.dice, channel),
            Edition::Second => ctb2::record(&mut self.dice, channel),
        };
        if self.dice.percent(10) {
            let index = self.dice.below(edition.fields());
            record[index] = self.some_value(edition, index);
        }
        if edition == Edition::Second && self.dice.percent(5) {
            let set = self.dice.pick(&SETS);
            record[set + RULE] = self.dice.pick(&[GUITAR, GUITAR, 3, 0xFF]);
        }
        if self.dice.percent(4) {
            record = with_cntt(record, Some(self.dice.byte()));
        }
        at_position(record, some_position(&mut self.dice))
    }

    /// A value at or beside a bound of what may stand at a byte, or any.
    fn some_value(&mut self, edition: Edition, index: usize) -> u8 {
        let Allowed::Within(low, high) = allowed(edition, index) else {
            return self.dice.pick(&TABLE_BOUNDS);
        };
        let inside = self.dice.between(usize::from(low), usize::from(high)) as u8;
        let values = [
            low,
            high,
            low.wrapping_sub(1),
            high.wrapping_add(1),
            inside,
            self.dice.byte(),
        ];
        self.dice.pick(&values)
    }

    fn place(&mut self) -> String {
        let edition = sound::some_edition(&mut self.dice);
        let mut record = self.record(edition);
        if self.dice.percent(50) {
            self.narrow(&mut record);
        }
        let root = self.dice.below(12) as u8;
        let note = self.some_note(&record);
        let any = self.dice.byte();
        let (root, note) = match self.dice.below(40) {
            0 => (any, note),
            1 => (root, any),
            2 => (12, note),
            3 => (root, 128),
            4..=6 => (root, any % 24),
            7..=9 => (root, 127 - any % 12),
            _ => (root, note),
        };
        format!("place {} {root} {note}", rec(&record))
    }

    /// Narrow or crossed limits for each set.
    fn narrow(&mut self, record: &mut Record) {
        let sets = match record.edition() {
            Edition::First => &[ONLY_SET][..],
            Edition::Second => &SETS,
        };
        for set in sets {
            let (low, high) = narrow::limits(&mut self.dice);
            record[set + LOW_LIMIT] = low;
            record[set + HIGH_LIMIT] = high;
        }
    }

    /// Any note; for a second-edition record often one at or beside a bound of its middle notes.
    fn some_note(&mut self, record: &Record) -> u8 {
        let any = self.dice.below(128) as u8;
        if record.edition() == Edition::First || self.dice.percent(40) {
            return any;
        }
        let bound = record[self.dice.pick(&[LOWEST_MIDDLE, HIGHEST_MIDDLE])];
        let near = [bound, bound.saturating_sub(1), bound.saturating_add(1)];
        self.dice.pick(&near).min(127)
    }

    fn write(&mut self) -> String {
        let count = self.dice.pick(&[0, 1, 1, 2, 2, 3, 3, 4, 5, 9]);
        let edition = sound::some_edition(&mut self.dice);
        let mut records = sound::records_of(&mut self.dice, edition, count);
        if self.dice.percent(35) && count > 0 {
            let number = self.dice.below(count);
            records[number] = self.record(edition);
            let index = self.dice.below(edition.fields());
            records[number][index] = self.some_value(edition, index);
        }
        if self.dice.percent(12) && count > 0 {
            let number = self.dice.below(count);
            records[number] = self.record(other(edition));
        }
        let names = self.dice.pick(&[1, 1, 1, 2, 3]);
        let mut text = sound::text(&mut self.dice, names, &mut HashSet::new());
        if self.dice.percent(20) {
            self.change(&mut text);
        }
        let fewer = count.saturating_sub(1);
        let wanted = self
            .dice
            .pick(&[count, count, count, count, fewer, fewer, count + 1]);
        self.set_positions(&mut records, wanted.min(count));
        let length = group_bytes(&text, &records[..wanted.min(count)]).len();
        let any = self.dice.below(300);
        let rooms = [length, length, length, length - 1, length + 3, any];
        let room = self.dice.pick(&rooms).min(2_048);
        let mut line = format!("write {} {wanted} {room}", self.spelled(&text));
        for record in &records {
            line.push(' ');
            line.push_str(&rec(record));
        }
        line
    }

    /// Gives the records up to the count positions that mostly are right, the others any.
    fn set_positions(&mut self, records: &mut [Record], count: usize) {
        let (judged, beyond) = records.split_at_mut(count);
        number_somehow(&mut self.dice, judged);
        if self.dice.percent(20) {
            spoil(&mut self.dice, judged);
        }
        for record in beyond {
            *record = at_position(*record, some_position(&mut self.dice));
        }
    }

    fn edit(&mut self) -> String {
        let body = self.asked_body();
        let (number, channels) = self.some_group(&body);
        let channel = self.some_channel(&channels);
        let groups = read_body(&body).unwrap_or_default();
        let mut edition = groups
            .get(number as usize)
            .and_then(|group| group.edition())
            .unwrap_or(Edition::First);
        if self.dice.percent(12) {
            edition = other(edition);
        }
        let mut record = self.record(edition);
        if self.dice.percent(95) {
            record[0] = channel;
        }
        let body_token = self.spelled(&body);
        let mut aside = self.dice.aside();
        match (aside.below(20), record_of(&groups, number, channel)) {
            (0 | 1, Some(old)) => record = old,
            (2, _) => record[READ_ONLY] = some_lock(&mut aside),
            (3, _) => record[aside.pick(&[9, 11, 18, 19])] = 0xFF,
            _ => (),
        }
        let mut tokens = format!("{number} {channel} {}", rec(&record));
        match aside.below(100) {
            0 => (),
            1 | 2 => tokens.push_str(&format!(" {}", aside.pick(&OVERRIDES))),
            _ => tokens.push_str(&format!(" {}", some_override(&mut aside))),
        }
        format!("edit {body_token} {tokens}")
    }

    /// A style file around a body, mostly a part and a source channel that it has, and a record that
    /// mostly suits what stands there; at times the file is damaged or its bytes are changed.
    fn editfile(&mut self) -> String {
        let body = self.asked_body();
        let groups = read_body(&body).unwrap_or_default();
        let mut part = some_part(&mut self.dice, &body);
        match self.dice.below(100) {
            0..=7 => part = self.strange_part(&body),
            8..=79 => part = file_edits::part_with_records(&mut self.dice, &groups).unwrap_or(part),
            _ => (),
        }
        let number = number_of_part(&groups, &part).unwrap_or(0);
        let records = groups.get(number).map_or(&[][..], |group| &group.records);
        let channels: Vec<u8> = records.iter().map(|placed| placed.record[0]).collect();
        let channel = self.some_channel(&channels);
        let old = record_of(&groups, number as u64, channel);
        let mut edition = old.map_or(Edition::First, |record| record.edition());
        if self.dice.percent(8) {
            edition = other(edition);
        }
        let mut record = self.record(edition);
        if self.dice.percent(92) {
            record[0] = channel;
        }
        match (self.dice.below(20), old) {
            (0, Some(old)) => record = old,
            (1, _) => record[READ_ONLY] = some_lock(&mut self.dice),
            (2, _) => record[self.dice.pick(&[9, 11, 18, 19])] = 0xFF,
            _ => (),
        }
        let mut file = file_edits::some_around(&mut self.dice, &body);
        if self.dice.percent(4) {
            self.change(&mut file);
        }
        let over = match self.dice.below(100) {
            0 => self.dice.pick(&OVERRIDES),
            _ => some_override(&mut self.dice),
        };
        let (file, part) = (self.spelled(&file), self.spelled(&part));
        format!("editfile {file} {part} {channel} {over} {}", rec(&record))
    }

    fn screen(&mut self) -> String {
        let edition = sound::some_edition(&mut self.dice);
        let mut record = self.record(edition);
        let index = self.dice.below(edition.fields());
        let value = self.some_value(edition, index);
        let odd = self
            .dice
            .pick(&[26, 27, 40, 46, 47, 48, 255, 4_294_967_295]);
        let index = if self.dice.percent(5) {
            odd
        } else {
            index as u64
        };
        let mut aside = self.dice.aside();
        if aside.percent(50) {
            record[READ_ONLY] = some_lock(&mut aside);
        }
        if aside.percent(8) {
            let value = some_lock(&mut aside);
            return format!("screen {} {READ_ONLY} {value}", rec(&record));
        }
        format!("screen {} {index} {value}", rec(&record))
    }

    fn checked(&mut self) -> String {
        let bodies = self.bodies_to_check();
        self.check_line("checked", &bodies)
    }

    /// Two files around two such bodies; at times bytes of the one or the other are changed.
    fn checkedfile(&mut self) -> String {
        let bodies = self.bodies_to_check();
        let mut files = somehow_around(&mut self.dice, &bodies);
        match self.dice.below(20) {
            0 => self.change(&mut files.before),
            1 => self.change(&mut files.after),
            _ => (),
        }
        self.check_line("checkedfile", &files)
    }

    fn check_line(&mut self, verb: &str, pair: &Pair) -> String {
        let Ask { number, channel } = pair.asked;
        let before = self.spelled(&pair.before);
        let after = self.spelled(&pair.after);
        format!("{verb} {before} {after} {number} {channel}")
    }

    /// Two bodies of which one mostly came of the other, at times the wrong way round.
    fn bodies_to_check(&mut self) -> Pair {
        let mut before = self.asked_body();
        let (mut number, channels) = self.some_group(&before);
        let mut channel = self.some_channel(&channels);
        let records = every_record(&before);
        if !records.is_empty() && self.dice.percent(70) {
            (number, channel) = self.dice.pick(&records);
        }
        let mut after = match self.dice.below(100) {
            0..=5 => self.asked_body(),
            16..=21 => self.body(),
            6..=15 => {
                let mut bytes = before.clone();
                self.change(&mut bytes);
                bytes
            }
            _ => somehow_after(&mut self.dice, &before, Ask { number, channel }),
        };
        if self.dice.percent(8) {
            std::mem::swap(&mut before, &mut after);
        }
        Pair {
            before,
            after,
            asked: Ask { number, channel },
        }
    }

    fn salvage(&mut self) -> String {
        let body = self.salvaged_body();
        let room = self.dice.pick(&[40, 40, 200, 8_192, 0, 1, 2, 3, 4]);
        format!("salvage {} {room}", self.spelled(&body))
    }

    /// Sound groups, damaged ones and loose bytes in a row.
    pub fn salvaged_body(&mut self) -> Vec<u8> {
        let mut body = self.body();
        for _ in 0..self.dice.below(3) {
            match self.dice.below(4) {
                0 => body.extend(b"CSEG"),
                1 => body.push(self.dice.byte()),
                2 => self.change(&mut body),
                _ => body.extend(self.body()),
            }
        }
        body.truncate(4_000);
        self.fill(&mut body, BODY_LIMIT);
        body
    }

    fn section(&mut self) -> String {
        let file = self.file();
        let at = sections::some_place(&mut self.dice, &file);
        format!("section {} {at}", self.spelled(&file))
    }

    fn entry(&mut self) -> String {
        let piece = self.piece();
        format!("entry {}", self.spelled(&piece))
    }

    /// An entry of a body's list, or a group alone, mostly with a fault and at times with a body
    /// behind it; now and then with changed bytes.
    fn piece(&mut self) -> Vec<u8> {
        let mut piece = if self.dice.percent(35) {
            let body = match self.dice.percent(30) {
                true => self.salvaged_body(),
                false => self.body(),
            };
            entries::some_piece(&mut self.dice, &body)
        } else {
            self.lone_group()
        };
        if self.dice.percent(4) {
            self.change(&mut piece);
        }
        self.fill(&mut piece, BODY_LIMIT);
        piece
    }

    fn lone_group(&mut self) -> Vec<u8> {
        let edition = sound::some_edition(&mut self.dice);
        let mut group = [sound::group(&mut self.dice, edition, &mut HashSet::new())];
        if self.dice.percent(80) {
            self.put_fault(&mut group);
        }
        let mut bytes = body_bytes(&group);
        if self.dice.percent(20) {
            bytes.extend(self.body());
        }
        bytes
    }

    fn site(&mut self) -> String {
        let bytes = match self.dice.below(10) {
            0..=2 => self.piece(),
            3..=6 => self.salvaged_body(),
            _ => self.asked_body(),
        };
        let place = sites::some_place(&mut self.dice, &bytes);
        format!("site {} {place}", self.spelled(&bytes))
    }
}
