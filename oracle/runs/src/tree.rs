//! Reads what `{:?}` prints into a tree.

/// A piece of debug text.
#[derive(Debug)]
pub enum Tree<'a> {
    /// A number or a bare name.
    Word(&'a str),
    /// `[…]`, and `Name(…)` or `(…)` with its name.
    List(&'a str, Vec<Tree<'a>>),
    /// `Name {…}` or `{…}`; the members of a set have the empty word as value.
    Map(&'a str, Vec<(Tree<'a>, Tree<'a>)>),
}

impl<'a> Tree<'a> {
    pub fn read(text: &'a str) -> Tree<'a> {
        let mut reader = Reader { text, place: 0 };
        let tree = reader.tree();
        assert_eq!(reader.place, text.len(), "text after the tree");
        tree
    }

    pub fn name(&self) -> &'a str {
        match self {
            Tree::Word(name) | Tree::List(name, _) | Tree::Map(name, _) => name,
        }
    }

    pub fn list(&self) -> &[Tree<'a>] {
        match self {
            Tree::List(_, items) => items,
            other => panic!("no list: {:?}", other),
        }
    }

    pub fn map(&self) -> &[(Tree<'a>, Tree<'a>)] {
        match self {
            Tree::Map(_, items) => items,
            other => panic!("no map: {:?}", other),
        }
    }

    pub fn field(&self, name: &str) -> &Tree<'a> {
        let found = self.map().iter().find(|(key, _)| key.name() == name);
        &found.unwrap_or_else(|| panic!("no field {}", name)).1
    }

    pub fn number(&self) -> u64 {
        self.name().parse().expect("a number")
    }

    pub fn flag(&self) -> u64 {
        match self.name() {
            "false" => 0,
            "true" => 1,
            other => panic!("no flag: {}", other),
        }
    }
}

struct Reader<'a> {
    text: &'a str,
    place: usize,
}

impl<'a> Reader<'a> {
    fn tree(&mut self) -> Tree<'a> {
        let name = self.word();
        match self.peek() {
            b'[' => Tree::List(name, self.items(b']').into_iter().map(|(item, _)| item).collect()),
            b'(' => Tree::List(name, self.items(b')').into_iter().map(|(item, _)| item).collect()),
            b'{' => Tree::Map(name, self.items(b'}')),
            _ => Tree::Word(name),
        }
    }

    /// Up to a bracket, a comma or a colon with a blank after it (a path's colons have none).
    fn word(&mut self) -> &'a str {
        let bytes = self.text.as_bytes();
        let start = self.place;
        while !b"[](){},".contains(&self.peek())
            && !(self.peek() == b':' && bytes.get(self.place + 1) == Some(&b' '))
            && self.place < bytes.len()
        {
            self.place += 1;
        }
        self.text[start..self.place].trim()
    }

    fn items(&mut self, end: u8) -> Vec<(Tree<'a>, Tree<'a>)> {
        let mut items = Vec::new();
        self.place += 1;
        self.blanks();
        while self.peek() != end {
            let key = self.tree();
            let mut value = Tree::Word("");
            if self.peek() == b':' {
                self.place += 2;
                value = self.tree();
            }
            items.push((key, value));
            if self.peek() == b',' {
                self.place += 1;
            }
            self.blanks();
        }
        self.place += 1;
        self.blanks();
        items
    }

    fn blanks(&mut self) {
        while self.peek() == b' ' {
            self.place += 1;
        }
    }

    /// The next byte, 0 at the end.
    fn peek(&self) -> u8 {
        self.text.as_bytes().get(self.place).copied().unwrap_or(0)
    }
}
