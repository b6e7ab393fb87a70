//! Lists that are never written out.

use std::sync::Arc;

/// So many things, each made when it is asked for by its number.
pub struct Listing<T> {
    count: u64,
    make: Arc<dyn Fn(u64) -> T + Send + Sync>,
}

impl<T> Clone for Listing<T> {
    fn clone(&self) -> Listing<T> {
        Listing {
            count: self.count,
            make: self.make.clone(),
        }
    }
}

impl<T: 'static> Listing<T> {
    pub fn count(&self) -> u64 {
        self.count
    }

    /// # Panics
    /// Where the number is not below the count.
    pub fn get(&self, number: u64) -> T {
        assert!(number < self.count, "{number} of {}", self.count);
        (self.make)(number)
    }

    fn new(count: u64, make: impl Fn(u64) -> T + Send + Sync + 'static) -> Listing<T> {
        Listing {
            count,
            make: Arc::new(make),
        }
    }

    pub fn none() -> Listing<T> {
        Listing::new(0, |_| unreachable!("nothing is asked for of none"))
    }

    pub fn of(items: Vec<T>) -> Listing<T>
    where
        T: Clone + Send + Sync,
    {
        let at = |number| number as usize;
        Listing::new(items.len() as u64, move |number| items[at(number)].clone())
    }

    pub fn map<U: 'static>(&self, change: impl Fn(T) -> U + Send + Sync + 'static) -> Listing<U> {
        let make = self.make.clone();
        Listing::new(self.count, move |number| change(make(number)))
    }

    /// One after the other.
    pub fn joined(parts: impl IntoIterator<Item = Listing<T>>) -> Listing<T> {
        let parts: Vec<Listing<T>> = parts.into_iter().filter(|part| part.count > 0).collect();
        let count = parts.iter().map(|part| part.count).sum();
        Listing::new(count, move |number| {
            let mut left = number;
            for part in &parts {
                if left < part.count {
                    return (part.make)(left);
                }
                left -= part.count;
            }
            unreachable!("the number is below the sum")
        })
    }

    /// Each with each of the others.
    pub fn with<U: 'static, V: 'static>(
        &self,
        others: &Listing<U>,
        pair: impl Fn(T, U) -> V + Send + Sync + 'static,
    ) -> Listing<V> {
        let (one, other) = (self.clone(), others.clone());
        Listing::new(self.count * others.count, move |number| {
            let [first, second] = [number / other.count, number % other.count];
            pair((one.make)(first), (other.make)(second))
        })
    }
}
