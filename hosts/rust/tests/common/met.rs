use threshreed::TourFault;

/// How often each fault was met; 0 stands for none.
pub struct Met([usize; 256]);

impl Met {
    pub fn new() -> Met {
        Met([0; 256])
    }

    pub fn count(&mut self, fault: Option<TourFault>) {
        self.0[fault.map_or(0, TourFault::number) as usize] += 1;
    }

    /// Says how often, and that each of these was met often.
    pub fn tell(&self, faults: &[TourFault]) {
        println!("{:>7}  taken", self.0[0]);
        assert!(self.0[0] > 1_000);
        for fault in faults {
            let times = self.0[fault.number() as usize];
            println!("{times:>7}  {}, {fault}", fault.number());
            assert!(times > 100, "{fault}");
        }
    }
}
