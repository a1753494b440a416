//! Job files as bytes: one writer for records, and a small script language.

#[derive(Clone, Default)]
pub struct File(pub Vec<u8>);

impl File {
    fn put(&mut self, kind: u8, parts: &[&[u8]]) {
        self.0.push(kind);
        for part in parts {
            self.0.extend_from_slice(part);
        }
    }

    pub fn header(&mut self, nodes: usize) {
        self.put(1, &[&half(nodes)]);
    }

    pub fn threshold(&mut self, node: usize, bound: i64) {
        self.put(2, &[&half(node), &bound.to_le_bytes()]);
    }

    pub fn term(&mut self, condition: usize, weight: u32) {
        self.put(3, &[&half(condition), &weight.to_le_bytes()]);
    }

    pub fn seal(&mut self) {
        self.0.push(4);
    }

    pub fn mark(&mut self, node: usize, value: u8) {
        self.put(5, &[&half(node), &[value]]);
    }

    pub fn settle(&mut self) {
        self.0.push(6);
    }

    pub fn sift(&mut self) {
        self.0.push(7);
    }

    pub fn area(&mut self, condition: usize, area: u32) {
        self.put(8, &[&half(condition), &area.to_le_bytes()]);
    }

    /// Records in words, parted by semicolons; `hex` gives bytes as they are.
    pub fn script(&mut self, text: &str) {
        for record in text.split(';').map(str::trim).filter(|record| !record.is_empty()) {
            let mut words = record.split_whitespace();
            let name = words.next().expect("a word");
            let fields: Vec<&str> = words.collect();
            if name == "hex" {
                self.hex(fields[0]);
                continue;
            }
            let number = |at: usize| fields[at].parse::<i64>().expect("a number");
            let place = |at: usize| number(at) as usize;
            match name {
                "header" => self.header(place(0)),
                "threshold" => self.threshold(place(0), number(1)),
                "term" => self.term(place(0), number(1) as u32),
                "seal" => self.seal(),
                "mark" => self.mark(place(0), number(1) as u8),
                "settle" => self.settle(),
                "sift" => self.sift(),
                "area" => self.area(place(0), number(1) as u32),
                _ => panic!("unknown record {record}"),
            }
        }
    }

    fn hex(&mut self, digits: &str) {
        for at in (0..digits.len()).step_by(2) {
            self.0.push(u8::from_str_radix(&digits[at..at + 2], 16).expect("two digits"));
        }
    }
}

fn half(number: usize) -> [u8; 2] {
    u16::try_from(number).expect("a field of two bytes").to_le_bytes()
}
