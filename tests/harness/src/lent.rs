//! A lent output with a margin on both sides, so that a write outside it shows.

const MARGIN: usize = 8;

pub struct Lent<T> {
    all: Vec<T>,
    room: usize,
}

impl<T: Copy + PartialEq> Lent<T> {
    /// An output of this room, filled with `old` as its margins are.
    pub fn new(room: usize, old: T) -> Lent<T> {
        Lent { all: vec![old; room + 2 * MARGIN], room }
    }

    pub fn slice(&mut self) -> &mut [T] {
        &mut self.all[MARGIN..MARGIN + self.room]
    }

    /// What the output holds after the call.
    pub fn left(mut self, old: T) -> Vec<T> {
        let after = self.all.split_off(MARGIN + self.room);
        let left = self.all.split_off(MARGIN);
        let kept = |margin: &[T]| margin.iter().all(|&value| value == old);
        assert!(kept(&self.all) && kept(&after), "a write outside the lent output");
        left
    }
}
