//! Things that come and go, each in a place of its own, which the next one takes.

/// Names a thing. No later one in its place has the same.
#[derive(Clone, Copy, PartialEq, Eq, PartialOrd, Ord, Debug, Hash)]
pub struct Id {
    pub slot: u32,
    pub generation: u32,
}

pub struct Slab<T> {
    places: Vec<(u32, Option<T>)>,
    free: Vec<u32>,
}

impl<T> Slab<T> {
    pub fn new() -> Slab<T> {
        Slab { places: Vec::new(), free: Vec::new() }
    }

    pub fn len(&self) -> usize {
        self.places.len() - self.free.len()
    }

    pub fn is_empty(&self) -> bool {
        self.len() == 0
    }

    /// The name that the next thing will have.
    pub fn next(&self) -> Id {
        match self.free.last() {
            Some(slot) => Id { slot: *slot, generation: self.places[*slot as usize].0 },
            None => Id { slot: self.places.len() as u32, generation: 0 },
        }
    }

    pub fn put(&mut self, it: T) -> Id {
        let id = self.next();
        if self.free.pop().is_some() {
            self.places[id.slot as usize].1 = Some(it);
        } else {
            self.places.push((0, Some(it)));
        }
        id
    }

    pub fn get(&self, id: Id) -> Option<&T> {
        self.places.get(id.slot as usize).filter(|it| it.0 == id.generation)?.1.as_ref()
    }

    pub fn get_mut(&mut self, id: Id) -> Option<&mut T> {
        self.places.get_mut(id.slot as usize).filter(|it| it.0 == id.generation)?.1.as_mut()
    }

    pub fn take(&mut self, id: Id) -> Option<T> {
        let place = self.places.get_mut(id.slot as usize).filter(|it| it.0 == id.generation)?;
        let it = place.1.take()?;
        place.0 = place.0.wrapping_add(1);
        self.free.push(id.slot);
        Some(it)
    }

    pub fn iter(&self) -> impl Iterator<Item = (Id, &T)> {
        let named = self.places.iter().enumerate();
        named.filter_map(|(slot, it)| Some((Id { slot: slot as u32, generation: it.0 }, it.1.as_ref()?)))
    }

    pub fn ids(&self) -> Vec<Id> {
        self.iter().map(|it| it.0).collect()
    }
}

#[cfg(test)]
mod tests {
    use super::*;

    #[test]
    fn a_place_is_taken_again_by_another_name() {
        let mut all = Slab::new();
        let (a, b) = (all.put('a'), all.put('b'));
        assert_eq!(all.take(a), Some('a'));
        let next = all.next();
        let c = all.put('c');
        assert_eq!((c, c.slot, all.len()), (next, a.slot, 2));
        assert_eq!((all.take(a), all.get(a), all.get(c)), (None, None, Some(&'c')));
        assert_eq!(all.ids(), [c, b]);
    }
}
