//! Maps that keep the order in which their keys came. The text joins the fields of Structs with one.

pub struct PlIndexMap<K, V>(Vec<(K, V)>);

impl<K: Eq, V> PlIndexMap<K, V> {
    pub fn entry(&mut self, key: K) -> Entry<'_, K, V> {
        Entry { map: self, key }
    }

    fn place(&self, key: &K) -> Option<usize> {
        self.0.iter().position(|(held, _)| held == key)
    }

    /// A key that is there keeps its place.
    fn insert(&mut self, key: K, value: V) {
        match self.place(&key) {
            Some(at) => self.0[at].1 = value,
            None => self.0.push((key, value)),
        }
    }
}

impl<K: Eq, V> FromIterator<(K, V)> for PlIndexMap<K, V> {
    fn from_iter<I: IntoIterator<Item = (K, V)>>(entries: I) -> PlIndexMap<K, V> {
        let mut map = PlIndexMap(vec![]);
        entries.into_iter().for_each(|(key, value)| map.insert(key, value));
        map
    }
}

impl<K, V> IntoIterator for PlIndexMap<K, V> {
    type Item = (K, V);
    type IntoIter = std::vec::IntoIter<(K, V)>;

    fn into_iter(self) -> Self::IntoIter {
        self.0.into_iter()
    }
}

pub struct Entry<'a, K, V> {
    map: &'a mut PlIndexMap<K, V>,
    key: K,
}

impl<'a, K: Eq, V> Entry<'a, K, V> {
    pub fn or_insert_with(self, value: impl FnOnce() -> V) -> &'a mut V {
        let at = self.map.place(&self.key).unwrap_or(self.map.0.len());
        if at == self.map.0.len() {
            self.map.0.push((self.key, value()));
        }
        &mut self.map.0[at].1
    }
}
