//! Messages that meet from both sides each number that decides: sizes, offsets, counts, levels, charges, tables and runs.

use crate::random::Random;

/// What an object is, as its pointer says it: the low bits of the word, the offset apart.
#[derive(Clone, Copy)]
struct Object {
    segment: usize,
    at: usize,
    bits: u64,
}

/// A message under construction.
struct Builder<'r> {
    random: &'r mut Random,
    segments: Vec<Vec<u64>>,
    // where pointer words are
    pointers: Vec<(usize, usize)>,
    made: Vec<Object>,
    // how many words may still be added
    left: usize,
    // how often an object is in a segment that its pointer isn't in
    far: u64,
}

/// The word of a near pointer from a place to an object of the same segment.
fn near(from: usize, object: &Object) -> u64 {
    let offset = (object.at as i64 - from as i64 - 1) as u64 & 0x3fff_ffff;
    object.bits | offset << 2
}

fn struct_bits(data: u64, pointers: u64) -> u64 {
    data << 32 | pointers << 48
}

fn list_bits(code: u64, count: u64) -> u64 {
    1 | code << 32 | count << 35
}

/// How many words a list of values takes.
fn list_words(code: u64, count: u64) -> u64 {
    let bits = [0, 1, 8, 16, 32, 64, 64][code as usize];
    (bits * count + 63) / 64
}

impl Builder<'_> {
    /// A word of data, often with zero bytes.
    fn data(&mut self) -> u64 {
        match self.random.below(6) {
            0 | 1 => 0,
            2 => self.random.below(256),
            3 => self.random.number() & self.random.number() & self.random.number(),
            4 => self.random.number() | 0x0101_0101_0101_0101,
            _ => self.random.number(),
        }
    }

    /// New words, in this segment or in another one.
    fn room(&mut self, segment: usize, words: usize) -> (usize, usize) {
        let mut segment = segment;
        if self.random.once_in(self.far) {
            segment = self.random.place(self.segments.len() + 1);
            if segment == self.segments.len() {
                self.segments.push(Vec::new());
            }
        }
        self.left = self.left.saturating_sub(words);
        let at = self.segments[segment].len();
        // (now and then words that nothing uses)
        let at = at + usize::from(self.random.once_in(30));
        self.segments[segment].resize(at + words, 0);
        (segment, at)
    }

    /// Puts the pointer to an object into a word.
    fn link(&mut self, segment: usize, at: usize, object: Object) {
        self.pointers.push((segment, at));
        if object.segment == segment {
            self.segments[segment][at] = near(at, &object);
            return;
        }
        let double = self.random.once_in(3);
        let pad_segment = if double { self.random.place(self.segments.len()) } else { object.segment };
        let pad = self.segments[pad_segment].len();
        if double {
            self.segments[pad_segment].push(2 | (object.at as u64) << 3 | (object.segment as u64) << 32);
            self.segments[pad_segment].push(object.bits);
            self.pointers.push((pad_segment, pad + 1));
        } else {
            self.segments[pad_segment].push(near(pad, &object));
        }
        self.pointers.push((pad_segment, pad));
        self.segments[segment][at] = 2 | u64::from(double) << 2 | (pad as u64) << 3 | (pad_segment as u64) << 32;
    }

    /// A struct with data at random, whose pointers lead to more objects.
    fn structure(&mut self, segment: usize, level: u32) -> Object {
        let (data, pointers) = (self.random.below(4), self.random.below(4));
        let (segment, at) = self.room(segment, (data + pointers) as usize);
        for word in 0..data as usize {
            self.segments[segment][at + word] = self.data();
        }
        let object = Object { segment, at, bits: struct_bits(data, pointers) };
        self.made.push(object);
        for pointer in 0..pointers as usize {
            self.child(segment, at + data as usize + pointer, level);
        }
        object
    }

    /// A list of values, of any size and code, with zeros or not after its last value.
    fn values(&mut self, segment: usize) -> Object {
        let code = self.random.below(6);
        let count = match self.random.below(4) {
            0 => self.random.below(4),
            1 => self.random.below(130),
            2 => {
                let in_a_word = 64 / [64, 1, 8, 16, 32, 64][code as usize];
                let whole = in_a_word * self.random.below(3);
                self.random.near(whole) & 0xff
            }
            _ if code == 0 => self.random.one_of(&[1, 4096, (1 << 29) - 1, 1 << 28]),
            _ => self.random.below(40),
        };
        let words = list_words(code, count);
        let (segment, at) = self.room(segment, words as usize);
        for word in 0..words as usize {
            self.segments[segment][at + word] = self.data();
        }
        let object = Object { segment, at, bits: list_bits(code, count) };
        self.made.push(object);
        object
    }

    /// A list of pointers.
    fn pointers(&mut self, segment: usize, level: u32) -> Object {
        let count = self.random.below(5);
        let (segment, at) = self.room(segment, count as usize);
        let object = Object { segment, at, bits: list_bits(6, count) };
        self.made.push(object);
        for pointer in 0..count as usize {
            self.child(segment, at + pointer, level);
        }
        object
    }

    /// A list of structs, now and then with words after its last element.
    fn structs(&mut self, segment: usize, level: u32) -> Object {
        let (data, pointers, count) = (self.random.below(3), self.random.below(3), self.random.below(5));
        let count =
            if data + pointers == 0 { self.random.one_of(&[0, 1, 4095, 4096, 4097, (1 << 28) + 1, (1 << 29) - 1]) } else { count };
        let words = (data + pointers) * count;
        let surplus = if self.random.once_in(8) { 1 } else { 0 };
        let (segment, at) = self.room(segment, 1 + (words + surplus) as usize);
        self.segments[segment][at] = count << 2 | struct_bits(data, pointers);
        // (its tag is met from both sides as a pointer is)
        self.pointers.push((segment, at));
        let object = Object { segment, at, bits: list_bits(7, words + surplus) };
        self.made.push(object);
        if words > 0 {
            for element in 0..count {
                let start = at + 1 + (element * (data + pointers)) as usize;
                for word in 0..data as usize {
                    self.segments[segment][start + word] = self.data();
                }
                for pointer in 0..pointers as usize {
                    self.child(segment, start + data as usize + pointer, level);
                }
            }
        }
        object
    }

    /// Fills a pointer word: with null, a capability, a new object, or one that was made before.
    fn child(&mut self, segment: usize, at: usize, level: u32) {
        if level == 0 || self.left == 0 || self.random.once_in(5) {
            self.pointers.push((segment, at));
            return;
        }
        if self.random.once_in(40) {
            self.pointers.push((segment, at));
            self.segments[segment][at] = 3 | self.random.below(5) << 32;
            return;
        }
        let object = if !self.made.is_empty() && self.random.once_in(25) {
            // shared, or a cycle
            self.made[self.random.place(self.made.len())]
        } else {
            match self.random.below(8) {
                0..=2 => self.structure(segment, level - 1),
                3 | 4 => self.values(segment),
                5 => self.pointers(segment, level - 1),
                _ => self.structs(segment, level - 1),
            }
        };
        self.link(segment, at, object);
    }
}

/// A message of objects at random.
fn tree(random: &mut Random) -> (Vec<Vec<u64>>, Vec<(usize, usize)>) {
    let far = random.one_of(&[1 << 40, 1 << 40, 3, 10]);
    let left = random.one_of(&[3, 20, 60, 200]);
    let mut builder = Builder { random, segments: vec![vec![0]], pointers: Vec::new(), made: Vec::new(), left, far };
    let levels = builder.random.one_of(&[2, 4, 8]);
    builder.child(0, 0, levels);
    (builder.segments, builder.pointers)
}

/// A chain of objects whose last one is at a level near 64, 128 or 256: structs, lists of pointers, lists of structs. The last
/// pointer is null, or bad.
fn chain(random: &mut Random) -> (Vec<Vec<u64>>, Vec<(usize, usize)>) {
    let kind = random.below(4);
    // (a list of structs takes two levels and two steps of a path)
    let deepest = if kind == 2 { 128 } else { 256 };
    let levels = match random.below(4) {
        0 => random.near(64),
        1 | 2 => random.near(deepest),
        _ => random.below(20),
    };
    let (mut words, mut pointers) = (vec![0], vec![(0, 0)]);
    let mut at = 0;
    for level in 0..levels {
        let kind = if kind == 3 { random.below(3) } else { kind };
        let start = words.len();
        let object = |bits| near(at, &Object { segment: 0, at: start, bits });
        words[at] = match kind {
            0 => object(struct_bits(0, 1)),
            1 if level > 0 => object(list_bits(6, 1)),
            _ => object(list_bits(7, 1)),
        };
        if words[at] >> 32 & 7 == 7 && words[at] & 3 == 1 {
            words.push(1 << 2 | struct_bits(0, 1));
        }
        at = words.len();
        words.push(0);
        pointers.push((0, at));
    }
    words[at] = random.one_of(&[0, 0, 3, 4, 1 << 2, 1 << 32]);
    (vec![words], pointers)
}

/// A message whose charge is near 4096 words above its words: `sharing` pointers lead to one list. `more` words of that list
/// are charged once more.
fn amplified(random: &mut Random) -> (Vec<Vec<u64>>, Vec<(usize, usize)>) {
    let words = random.one_of(&[64, 100, 512, 1000]);
    let sharing = 4096 / words + 1;
    // each of them charges the list, and the message has it once: (sharing - 1) * words, less the root pointer and the struct
    let missing = 4096 + 1 - (sharing - 1) * words;
    let more = random.near(missing % words);
    let mut message = vec![struct_bits(0, sharing + 1)];
    let first = sharing + 2;
    for pointer in 1..=sharing {
        message.push(list_bits(5, words) | (first - pointer - 1) << 2);
    }
    message.push(list_bits(5, more.min(words)));
    message.resize(message.len() + words as usize, 0);
    (vec![message], vec![(0, 0)])
}

/// A message of very many segments.
fn many_segments(random: &mut Random) -> (Vec<Vec<u64>>, Vec<(usize, usize)>) {
    let count = random.one_of(&[2, 3, 510, 511, 512, 513, 514]);
    let last = count - 1 - random.place(2);
    let mut segments = vec![vec![0]; count];
    segments[0][0] = 2 | (last as u64) << 32;
    segments[last] = vec![struct_bits(1, 0), 7];
    if random.once_in(2) {
        segments[random.place(count)].clear();
    }
    (segments, vec![(0, 0), (last, 0)])
}

/// A message whose pointers are far ones to landing pads of all forms. A pad is null, a capability, a pointer to an empty or a full
/// segment, or another far pointer. It is whole, or at the end of its segment.
fn pads(random: &mut Random) -> (Vec<Vec<u64>>, Vec<(usize, usize)>) {
    let mut segments = vec![vec![struct_bits(0, 4), 0, 0, 0, 0], Vec::new(), Vec::new(), Vec::new()];
    let mut pointers = vec![(0, 0)];
    let last = 1 + random.place(4);
    for pointer in 1..=last {
        let pad_segment = random.place(3);
        let pad = segments[pad_segment].len();
        let double = u64::from(random.once_in(4));
        // (most of them are valid)
        let word = match random.below(9) {
            0 | 1 => 0,
            2 | 3 => 3 | random.below(3) << 32,
            4 | 5 => struct_bits(0, 0),
            6 => list_bits(random.below(8), 0),
            7 => list_bits(random.below(8), random.below(2)),
            _ => 2 | random.below(3) << 3 | random.below(4) << 32,
        };
        segments[pad_segment].push(word);
        if double == 1 && !random.once_in(4) {
            let tag = random.one_of(&[0, 3, 4, struct_bits(0, 0), struct_bits(1, 0), list_bits(2, 0), list_bits(7, 0)]);
            segments[pad_segment].push(tag);
        }
        segments[0][pointer] = 2 | double << 2 | (pad as u64) << 3 | (pad_segment as u64) << 32;
        pointers.push((0, pointer));
        pointers.push((pad_segment, pad));
    }
    (segments, pointers)
}

/// A struct of many data words, in runs of zeros and of full words that are near 8, 16, 255 or 256 words long.
fn runs(random: &mut Random) -> (Vec<Vec<u64>>, Vec<(usize, usize)>) {
    let mut words = vec![0];
    for _ in 0..1 + random.below(5) {
        let length = random.one_of(&[1, 8, 16, 255, 256, 257]);
        let length = random.near(length).min(300);
        let word = random.one_of(&[0, 0, u64::MAX, 0x0102_0304_0506_0708, 0x0102_0304_0506_0700, 0x0102_0304_0506_0000, 1 << 40]);
        words.extend(std::iter::repeat(word).take(length as usize));
    }
    words[0] = struct_bits(words.len() as u64 - 1, 0);
    (vec![words], vec![(0, 0)])
}

/// Changes a pointer word a little: each field by at most two, or to what ends exactly with its segment.
fn turn(random: &mut Random, segments: &mut [Vec<u64>], pointers: &[(usize, usize)]) {
    let (segment, at) = random.one_of(pointers);
    let length = match segments.get(segment) {
        Some(words) if at < words.len() => words.len() as u64,
        _ => return,
    };
    let word = &mut segments[segment][at];
    let set = |word: u64, start: u32, size: u32, value: u64| {
        let mask = ((1 << size) - 1) << start;
        word & !mask | value << start & mask
    };
    let get = |word: u64, start: u32, size: u32| word >> start & ((1 << size) - 1);
    // the offset with which something of this size ends with the segment
    let to_end = |words: u64| length.wrapping_sub(words).wrapping_sub(at as u64 + 1);
    *word = match random.below(12) {
        0 | 1 => set(*word, 2, 30, random.near(get(*word, 2, 30))),
        2 => set(*word, 32, 16, random.near(get(*word, 32, 16))),
        3 => set(*word, 48, 16, random.near(get(*word, 48, 16))),
        4 => set(*word, 35, 29, random.near(get(*word, 35, 29))),
        5 => set(*word, 32, 3, random.below(8)),
        6 => set(*word, 0, 2, random.below(4)),
        7 => set(*word, 2, 30, random.near(to_end(get(*word, 32, 16) + get(*word, 48, 16)))),
        8 => {
            let code = get(*word, 32, 3);
            let words = if code == 7 { 1 + get(*word, 35, 29) } else { list_words(code, get(*word, 35, 29)) };
            set(*word, 2, 30, random.near(to_end(words)))
        }
        // before the first word
        9 => set(*word, 2, 30, random.near(0u64.wrapping_sub(at as u64 + 1))),
        // a pad at the end, in a segment that is there or just not
        10 => set(*word, 3, 29, random.near(length)),
        _ => set(*word, 32, 32, random.near(get(*word, 32, 32))),
    };
}

/// The bytes of a frame.
fn framed(segments: &[Vec<u64>]) -> Vec<u8> {
    let mut bytes = Vec::new();
    bytes.extend((segments.len() as u32).wrapping_sub(1).to_le_bytes());
    for words in segments {
        bytes.extend((words.len() as u32).to_le_bytes());
    }
    if segments.len() % 2 == 0 {
        bytes.extend([0; 4]);
    }
    for word in segments.iter().flatten() {
        bytes.extend(word.to_le_bytes());
    }
    bytes
}

/// Changes bytes at random, and the length by a little.
fn damage(random: &mut Random, bytes: &mut Vec<u8>) {
    for _ in 0..1 + random.below(3) {
        if bytes.is_empty() {
            return;
        }
        let at = random.place(bytes.len());
        match random.below(7) {
            0 | 1 => bytes[at] ^= 1 << random.below(8),
            2 => bytes[at] = random.number() as u8,
            // (the table)
            3 => {
                let at = at % 16 % bytes.len();
                bytes[at] = random.near(u64::from(bytes[at])) as u8;
            }
            4 => bytes.truncate(at),
            5 => bytes.truncate(bytes.len() - 1 - at % 9 % bytes.len()),
            _ => {
                for _ in 0..1 + random.below(17) {
                    bytes.push(random.number() as u8);
                }
            }
        }
    }
}

/// The bytes of a message, whole or damaged.
pub fn message(random: &mut Random) -> Vec<u8> {
    let (mut segments, pointers) = match random.below(20) {
        0..=10 => tree(random),
        11 | 12 => pads(random),
        13..=15 => chain(random),
        16 => amplified(random),
        17 => many_segments(random),
        _ => runs(random),
    };
    if random.once_in(2) {
        for _ in 0..1 + random.below(2) {
            turn(random, &mut segments, &pointers);
        }
    }
    let mut bytes = framed(&segments);
    if random.once_in(4) {
        damage(random, &mut bytes);
    }
    bytes
}
