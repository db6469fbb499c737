//! Checkpoints: a device as bytes, to go on from on another computer. docs/CHECKPOINT.md has the format byte by byte.
use crate::{answer, raw, Device, Refusal};

/// The bytes of a checkpoint of kind 51.
pub const CHECKPOINT_51: usize = 297;
/// The bytes of a checkpoint of kind 52.
pub const CHECKPOINT_52: usize = 307;

impl Device {
    /// The bytes that a checkpoint of this device has, by its kind; the record is not judged.
    pub fn checkpoint_length(&self) -> usize {
        match self.kind {
            51 => CHECKPOINT_51,
            _ => CHECKPOINT_52,
        }
    }

    /// The device as a checkpoint, which [`load`](Device::load) reads. A device goes on from it as the one that was saved does:
    ///
    /// ```
    /// use c51::{address, Device, CHECKPOINT_52, PINS_HIGH};
    ///
    /// let mut device = Device::reset(52)?;
    /// device.write(address::SBUF, 0x35)?; // sending, in serial mode 0
    /// device.jump(PINS_HIGH, 5)?;
    /// let file = device.save()?; // in the middle of the byte
    /// assert_eq!(file.len(), CHECKPOINT_52);
    ///
    /// let moved = Device::load(&file)?;
    /// assert_eq!(moved, device);
    /// assert_eq!(moved.look_ahead(PINS_HIGH, 100)?, Some(5)); // TI rises in cycle 10
    /// # Ok::<(), c51::Refusal>(())
    /// ```
    pub fn save(&self) -> Result<Vec<u8>, Refusal> {
        let mut file = vec![0; self.checkpoint_length()];
        self.save_into(&mut file)?;
        Ok(file)
    }

    /// The same into a buffer of just its length, [`CHECKPOINT_51`] or [`CHECKPOINT_52`]. Refused, it leaves the buffer as it was.
    ///
    /// ```
    /// use c51::{Device, Refusal, CHECKPOINT_51, CHECKPOINT_52};
    ///
    /// let device = Device::reset(51)?;
    /// let mut buffer = [0xAA; CHECKPOINT_52];
    /// assert_eq!(device.save_into(&mut buffer), Err(Refusal::BadLength)); // that of the other kind
    /// assert_eq!(buffer, [0xAA; CHECKPOINT_52]);
    /// device.save_into(&mut buffer[..CHECKPOINT_51])?;
    /// assert_eq!(Device::load(&buffer[..CHECKPOINT_51])?, device);
    /// # Ok::<(), Refusal>(())
    /// ```
    pub fn save_into(&self, buffer: &mut [u8]) -> Result<(), Refusal> {
        answer(raw::save(*self, buffer), ())
    }

    /// The device of a checkpoint. It is read from the front, and the first fault decides: [`Refusal::BadLength`],
    /// [`Refusal::BadLayout`] or [`Refusal::BadValue`]. A file that passes is the one that [`save`](Device::save) writes of its device,
    /// and every call accepts that device.
    ///
    /// ```
    /// use c51::{Device, Refusal};
    ///
    /// let file = Device::reset(52)?.save()?;
    /// assert_eq!(Device::load(&file[..306]), Err(Refusal::BadLength)); // cut short
    /// assert_eq!(Device::load(b"another file"), Err(Refusal::BadLayout));
    /// # Ok::<(), Refusal>(())
    /// ```
    pub fn load(file: &[u8]) -> Result<Device, Refusal> {
        let a = raw::load(file);
        answer(a.code, a.device)
    }
}
