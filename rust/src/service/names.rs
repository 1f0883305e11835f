//! The names of tenants and of kinds.
use super::cause::BuildFault;

/// Names under their numbers.
#[derive(Clone, Debug, Default)]
pub(crate) struct Names {
    names: Vec<String>,
    /// The numbers in the order of their names.
    sorted: Vec<u32>,
}

impl Names {
    pub(crate) fn push(&mut self, name: &str) {
        self.names.push(name.to_string());
    }

    pub(crate) fn len(&self) -> usize {
        self.names.len()
    }

    pub(crate) fn get(&self, number: u32) -> Option<&str> {
        self.names.get(number as usize).map(String::as_str)
    }

    pub(crate) fn iter(&self) -> impl Iterator<Item = &String> {
        self.names.iter()
    }

    /// Sorts them once all are there. Fails with the first text that is no name, or the first of two equal names.
    pub(crate) fn sort(&mut self) -> Result<(), BuildFault> {
        let names = &self.names;
        if let Some(name) = names.iter().find(|name| !is_name(name)) {
            return Err(BuildFault::Name(name.clone()));
        }
        self.sorted = (0..names.len() as u32).collect();
        self.sorted.sort_unstable_by_key(|&number| &names[number as usize]);
        let mut pairs = self.sorted.windows(2).map(|pair| [pair[0], pair[1]].map(|number| &names[number as usize]));
        match pairs.find(|[name, next]| name == next) {
            Some([name, _]) => Err(BuildFault::Twice(name.clone())),
            None => Ok(()),
        }
    }

    /// The number of a name, once they are sorted.
    pub(crate) fn number(&self, name: &str) -> Option<u32> {
        let name_of = |number: &u32| self.names[*number as usize].as_str();
        let place = self.sorted.binary_search_by_key(&name, name_of).ok()?;
        Some(self.sorted[place])
    }
}

fn is_name(text: &str) -> bool {
    let is_in_name = |byte: u8| byte.is_ascii_alphanumeric() || b"_-.".contains(&byte);
    (1..=64).contains(&text.len()) && text.bytes().all(is_in_name)
}
