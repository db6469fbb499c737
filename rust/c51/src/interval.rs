//! The calls of the 82C53.
use crate::{answer, raw, Interval, Refusal};

impl Interval {
    /// The 82C53 after reset: each counter as a control word for mode 0, binary, both leaves it.
    ///
    /// ```
    /// use c51::Interval;
    ///
    /// let interval = Interval::reset();
    /// assert!(interval.accepts());
    /// assert_eq!((interval.counter2.format, interval.outputs()), (3, 0));
    /// assert!(!Interval::default().accepts()); // zeros are no record
    /// ```
    pub fn reset() -> Interval {
        raw::c53_reset()
    }

    /// Whether the calls accept the record.
    pub fn accepts(&self) -> bool {
        raw::c53_accepts(*self) == 1
    }

    /// Writes a byte of a count, or the control word. Counter 0 as a rate generator, which divides by 1,000 in BCD:
    ///
    /// ```
    /// use c51::{control, port, Interval, Refusal, GATES_HIGH};
    ///
    /// let mut interval = Interval::reset();
    /// interval.write(port::CONTROL, control::SELECT0 | control::BOTH | control::MODE2 | control::BCD)?;
    /// interval.write(port::COUNTER0, 0x00)?; // low byte
    /// assert_eq!(interval.write(port::COUNTER0, 0xA0), Err(Refusal::BadCount)); // the high byte is still due
    /// interval.write(port::COUNTER0, 0x10)?;
    /// assert_eq!(interval.jump(GATES_HIGH, 999)?, 1); // loaded, and counted down to 2
    /// assert_eq!(interval.pulse(GATES_HIGH)?, 0); // low at 1, for one pulse of 1,000
    /// assert_eq!(interval.pulse(GATES_HIGH)?, 1); // reloaded
    /// assert_eq!(interval.jump(GATES_HIGH, 999 + 1_000_000_000)?, 0); // a million laps and one pulse short of one more
    /// # Ok::<(), Refusal>(())
    /// ```
    #[inline]
    pub fn write(&mut self, address: u8, byte: u8) -> Result<(), Refusal> {
        answer(raw::c53_write(self, address, byte), ())
    }

    /// Reads a byte of a count, of the latch where there is one. With both, low and high alternate:
    ///
    /// ```
    /// use c51::{control, port, Interval, GATES_HIGH};
    ///
    /// let mut interval = Interval::reset();
    /// interval.write(port::CONTROL, control::SELECT1 | control::BOTH | control::MODE0)?;
    /// interval.write(port::COUNTER1, 0x00)?;
    /// interval.write(port::COUNTER1, 0x02)?;
    /// interval.pulse(GATES_HIGH)?; // loads 0200
    /// interval.write(port::CONTROL, control::SELECT1 | control::LATCH)?;
    /// interval.pulse(GATES_HIGH)?; // counts on to 01FF
    /// assert_eq!([interval.read(port::COUNTER1)?, interval.read(port::COUNTER1)?], [0x00, 0x02]);
    /// assert_eq!([interval.read(port::COUNTER1)?, interval.read(port::COUNTER1)?], [0xFF, 0x01]);
    /// # Ok::<(), c51::Refusal>(())
    /// ```
    #[inline]
    pub fn read(&mut self, address: u8) -> Result<u8, Refusal> {
        let a = raw::c53_read(self, address);
        answer(a.code, a.value)
    }

    /// One pulse with a gate byte; gives the outputs as it leaves them. A count of 3 in mode 0 ends in pulse 4:
    ///
    /// ```
    /// use c51::{control, port, Interval, GATES_HIGH};
    ///
    /// let mut interval = Interval::reset();
    /// interval.write(port::CONTROL, control::SELECT0 | control::LOW | control::MODE0)?;
    /// interval.write(port::COUNTER0, 3)?;
    /// for outputs in [0, 0, 0, 1] {
    ///     assert_eq!(interval.pulse(GATES_HIGH)?, outputs); // the first of them loads
    /// }
    /// assert_eq!(interval.outputs(), 1);
    /// # Ok::<(), c51::Refusal>(())
    /// ```
    #[inline]
    pub fn pulse(&mut self, gates: u8) -> Result<u8, Refusal> {
        let a = raw::c53_pulse(self, gates);
        answer(a.code, a.outputs)
    }

    /// n pulses with one gate byte; gives the outputs as they leave them. The cost does not depend on n.
    ///
    /// ```
    /// use c51::{control, gate, out, port, Interval, MAX_CYCLES};
    ///
    /// let mut interval = Interval::reset();
    /// interval.write(port::CONTROL, control::SELECT2 | control::LOW | control::MODE0)?;
    /// interval.write(port::COUNTER2, 3)?;
    /// assert_eq!(interval.jump(0, MAX_CYCLES)?, 0); // loaded, and held by its gate
    /// assert_eq!(interval.jump(gate::GATE2, 2)?, 0);
    /// assert_eq!(interval.jump(gate::GATE2, 1)?, out::OUT2); // at 0
    /// assert_eq!(interval.jump(gate::GATE2, MAX_CYCLES)?, out::OUT2); // it counts on, and the output stays
    /// assert_eq!(interval.counter2.count, 0); // 2^24 laps of 65,536
    /// # Ok::<(), c51::Refusal>(())
    /// ```
    #[inline]
    pub fn jump(&mut self, gates: u8, n: u64) -> Result<u8, Refusal> {
        let a = raw::c53_jump(self, gates, n);
        answer(a.code, a.outputs)
    }

    /// The outputs as the 82C53 stands; of a record that is not accepted, the low bit of each output.
    #[inline]
    pub fn outputs(&self) -> u8 {
        raw::c53_outputs(*self)
    }
}
