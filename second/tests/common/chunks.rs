//! The chunks of an accepted body, walked by their lengths alone, without the library's reader.

/// A chunk where it stands: the place of its tag, its tag and its payload.
pub struct Chunk<'a> {
    pub place: usize,
    pub tag: &'a [u8],
    pub payload: &'a [u8],
}

impl Chunk<'_> {
    /// The place behind it.
    pub fn end(&self) -> usize {
        self.place + 8 + self.payload.len()
    }
}

/// The chunks from a place of the bytes up to another.
pub fn chunks(bytes: &[u8], from: usize, to: usize) -> Vec<Chunk<'_>> {
    let mut list = Vec::new();
    let mut place = from;
    while place < to {
        let length = u32::from_be_bytes(bytes[place + 4..place + 8].try_into().unwrap());
        let chunk = Chunk {
            place,
            tag: &bytes[place..place + 4],
            payload: &bytes[place + 8..place + 8 + length as usize],
        };
        place = chunk.end();
        list.push(chunk);
    }
    list
}

/// The groups of a body, each with its children: an Sdec, Ctabs and Cntts, or an Sdec and Ctb2s.
pub fn groups(body: &[u8]) -> Vec<(Chunk<'_>, Vec<Chunk<'_>>)> {
    chunks(body, 0, body.len())
        .into_iter()
        .map(|group| {
            let children = chunks(body, group.place + 8, group.end());
            (group, children)
        })
        .collect()
}

/// The children of a tag.
pub fn of_tag<'a, 'b>(children: &'b [Chunk<'a>], tag: &[u8]) -> Vec<&'b Chunk<'a>> {
    children.iter().filter(|child| child.tag == tag).collect()
}

/// The children that are records: Ctabs, or Ctb2s.
pub fn records<'a, 'b>(children: &'b [Chunk<'a>]) -> Vec<&'b Chunk<'a>> {
    let is_record = |child: &&Chunk| child.tag == b"Ctab" || child.tag == b"Ctb2";
    children.iter().filter(is_record).collect()
}

/// The edition of a group's records, 0 for a group without any.
pub fn edition(children: &[Chunk]) -> usize {
    match records(children).first() {
        None => 0,
        Some(record) if record.tag == b"Ctab" => 1,
        Some(_) => 2,
    }
}

/// The names of a group's Sdec.
pub fn names<'a>(children: &[Chunk<'a>]) -> Vec<&'a [u8]> {
    children[0].payload.split(|&byte| byte == b',').collect()
}
