//! The values of a settings file before it is written down. A draft may hold
//! values that no accepted file has.

#[derive(Clone)]
pub struct Draft {
    pub algo: String,
    pub procs: usize,
    pub home: usize,
    pub ticket: usize,
    pub budget: usize,
    /// Rounds and hold of each processor.
    pub plans: Vec<(usize, usize)>,
    pub turns: Vec<usize>,
}

impl Draft {
    /// The file, line by line.
    pub fn bytes(&self) -> Vec<u8> {
        let mut file = format!(
            "algo={}\nprocs={}\nhome={}\nticket={}\nbudget={}\n",
            self.algo, self.procs, self.home, self.ticket, self.budget
        );
        for (processor, (rounds, hold)) in self.plans.iter().enumerate() {
            file.push_str(&format!("p{processor}={rounds},{hold}\n"));
        }
        let turns: Vec<String> = self.turns.iter().map(usize::to_string).collect();
        file.push_str(&format!("turns={}\n", turns.join(",")));
        file.into_bytes()
    }
}
