//! Job files written record by record, as docs/FORMAT.md has them.

/// A job file. Each method writes one record; the planner makes every check, and refuses the first record that fails one.
///
/// ```
/// let mut job = planner::Job::new(5);
/// job.threshold(4, 6).term(0, 4).term(1, 3).term(2, 2);
/// job.seal().mark_sure(4).settle();
/// assert_eq!(job.as_bytes().len(), 41);
/// ```
#[derive(Clone, Debug, PartialEq, Eq, Hash)]
pub struct Job {
    bytes: Vec<u8>,
}

/// Bytes of body after each byte of kind.
const BODIES: [usize; 9] = [0, 2, 10, 6, 0, 3, 0, 0, 6];

const MARK: u8 = 5;
const SETTLE: u8 = 6;
const SIFT: u8 = 7;

impl Job {
    /// The header: a job of so many nodes, at most 4,096.
    #[must_use]
    pub fn new(nodes: u16) -> Self {
        let mut job = Self { bytes: Vec::new() };
        job.put(1, &[&nodes.to_le_bytes()]);
        job
    }

    fn put(&mut self, kind: u8, fields: &[&[u8]]) -> &mut Self {
        self.bytes.push(kind);
        self.bytes.extend(fields.iter().copied().flatten());
        self
    }

    /// Opens a threshold: its node is true exactly if the weights of its true conditions reach the bound. Nodes rise from one threshold to
    /// the next.
    pub fn threshold(&mut self, node: u16, bound: i64) -> &mut Self {
        self.put(2, &[&node.to_le_bytes(), &bound.to_le_bytes()])
    }

    /// A term of the open threshold.
    pub fn term(&mut self, condition: u16, weight: u32) -> &mut Self {
        self.put(3, &[&condition.to_le_bytes(), &weight.to_le_bytes()])
    }

    /// A term of the open threshold in hundredths; those of one condition are added before they are rounded.
    pub fn area(&mut self, condition: u16, hundredths: u32) -> &mut Self {
        self.put(8, &[&condition.to_le_bytes(), &hundredths.to_le_bytes()])
    }

    /// Closes the job. Marks, settles and sifts come after it.
    pub fn seal(&mut self) -> &mut Self {
        self.put(4, &[])
    }

    /// Marks a node sure; the next settle or sift works out what follows.
    pub fn mark_sure(&mut self, node: u16) -> &mut Self {
        self.put(MARK, &[&node.to_le_bytes(), &[1]])
    }

    /// Marks a node never; the next settle or sift works out what follows.
    pub fn mark_never(&mut self, node: u16) -> &mut Self {
        self.put(MARK, &[&node.to_le_bytes(), &[0]])
    }

    /// Works out what follows from all that is decided by now.
    pub fn settle(&mut self) -> &mut Self {
        self.put(SETTLE, &[])
    }

    /// Settles, and looks closer at rows that are bounded on both sides.
    pub fn sift(&mut self) -> &mut Self {
        self.put(SIFT, &[])
    }

    /// The file.
    #[must_use]
    pub fn as_bytes(&self) -> &[u8] {
        &self.bytes
    }
}

impl AsRef<[u8]> for Job {
    fn as_ref(&self) -> &[u8] {
        &self.bytes
    }
}

impl From<Job> for Vec<u8> {
    fn from(job: Job) -> Self {
        job.bytes
    }
}

/// How many marks come after the last settle or sift of records that were all taken.
pub(crate) fn unsettled_marks(mut taken: &[u8]) -> usize {
    let mut marks = 0;
    while let [kind, rest @ ..] = taken {
        match *kind {
            MARK => marks += 1,
            SETTLE | SIFT => marks = 0,
            _ => {}
        }
        taken = &rest[BODIES[usize::from(*kind)]..];
    }
    marks
}
