//! The shared memory. It knows the home of every variable and counts each
//! access that comes from a processor other than the home.

/// Where a variable stands in the shared memory.
#[derive(Clone, Copy, Debug, PartialEq, Eq, Hash)]
pub struct Address(usize);

#[derive(Clone, Copy)]
struct Variable {
    home: usize,
    value: u16,
}

/// The remote references of one processor.
#[derive(Clone, Copy, Debug, Default, PartialEq, Eq)]
pub struct References {
    /// In the whole run.
    pub all: u32,
    /// In the passage now under way.
    passage: u32,
    /// Most in any one passage begun.
    pub most: u32,
}

#[derive(Clone)]
pub struct Memory {
    variables: Vec<Variable>,
    references: Vec<References>,
    total: u32,
}

impl Memory {
    pub fn new(procs: usize) -> Memory {
        Memory { variables: Vec::new(), references: vec![References::default(); procs], total: 0 }
    }

    /// Gives a variable a place at its home and its first value.
    pub fn place(&mut self, home: usize, value: u16) -> Address {
        self.variables.push(Variable { home, value });
        Address(self.variables.len() - 1)
    }

    /// Whether this access would be a remote reference. Touches nothing.
    pub fn is_remote(&self, processor: usize, address: Address) -> bool {
        self.variables[address.0].home != processor
    }

    /// The remote references of all processors so far.
    pub fn total(&self) -> u32 {
        self.total
    }

    pub fn references(&self, processor: usize) -> References {
        self.references[processor]
    }

    /// The values of all variables, in the order of their placing.
    pub fn values(&self) -> impl Iterator<Item = u16> + '_ {
        self.variables.iter().map(|variable| variable.value)
    }

    /// From here on the processor's references belong to a new passage.
    pub fn begin_passage(&mut self, processor: usize) {
        self.references[processor].passage = 0;
    }

    pub fn read(&mut self, processor: usize, address: Address) -> u16 {
        *self.access(processor, address)
    }

    pub fn write(&mut self, processor: usize, address: Address, value: u16) {
        *self.access(processor, address) = value;
    }

    /// `fetch_and_store` of the figures; answers the old value.
    pub fn swap(&mut self, processor: usize, address: Address, value: u16) -> u16 {
        std::mem::replace(self.access(processor, address), value)
    }

    /// A reference whether or not it swaps; answers whether it did.
    pub fn compare_and_swap(
        &mut self,
        processor: usize,
        address: Address,
        old: u16,
        new: u16,
    ) -> bool {
        let value = self.access(processor, address);
        let equal = *value == old;
        if equal {
            *value = new;
        }
        equal
    }

    /// Answers the old value; after 65535 comes 0.
    pub fn fetch_and_increment(&mut self, processor: usize, address: Address) -> u16 {
        let value = self.access(processor, address);
        let old = *value;
        *value = old.wrapping_add(1);
        old
    }

    /// Answers the old value.
    pub fn fetch_and_decrement(&mut self, processor: usize, address: Address) -> u16 {
        let value = self.access(processor, address);
        let old = *value;
        *value = old.wrapping_sub(1);
        old
    }

    /// The one way to a variable: every access is counted here.
    fn access(&mut self, processor: usize, address: Address) -> &mut u16 {
        let variable = &mut self.variables[address.0];
        if variable.home != processor {
            let references = &mut self.references[processor];
            references.all += 1;
            references.passage += 1;
            references.most = references.most.max(references.passage);
            self.total += 1;
        }
        &mut variable.value
    }
}
