//! Variable length records, of both kinds.

use crate::{
    refusal::Refusal,
    sys::{self, VlrHead},
    text,
};
use std::borrow::Cow;

/// A VLR, or an EVLR: a record before the points, or after them, with data of any kind.
#[derive(Clone, Copy, Debug, PartialEq, Eq, Hash)]
pub struct Vlr<'a> {
    /// Whether it is an EVLR: its head has 60 bytes and a length of 64 bits, where a VLR's has 54 and 16.
    pub extended: bool,
    /// The reserved number.
    pub reserved: u16,
    /// Who defined the record; [`Vlr::user`] is its text.
    pub user_id: [u8; 16],
    /// Which of the user's records it is.
    pub record_id: u16,
    /// What it is; [`Vlr::about`] is its text.
    pub description: [u8; 32],
    /// The data, as that part of the bytes that were read.
    pub data: &'a [u8],
}

impl<'a> Vlr<'a> {
    /// A record with these texts, as far as they fit, and this data.
    ///
    /// ```
    /// use inscjarol::Vlr;
    ///
    /// let vlr = Vlr::new(false, "somebody", 7, "a note", b"some data");
    /// let bytes = vlr.to_vec()?;
    /// assert_eq!(Vlr::read(&bytes, false)?, vlr);
    /// # Ok::<(), inscjarol::Refusal>(())
    /// ```
    pub fn new(extended: bool, user: &str, record_id: u16, about: &str, data: &'a [u8]) -> Vlr<'a> {
        Vlr {
            extended,
            reserved: 0,
            user_id: text::field(user),
            record_id,
            description: text::field(about),
            data,
        }
    }

    /// The record at the front of these bytes, refused with 1 where it is not all there.
    pub fn read(bytes: &'a [u8], extended: bool) -> Result<Vlr<'a>, Refusal> {
        let head = sys::vlr_read(bytes, extended)?;
        let [reserved, record_id, _] = head.numbers;
        Ok(Vlr {
            extended,
            reserved: reserved as u16,
            user_id: head.user_id,
            record_id: record_id as u16,
            description: head.description,
            data: sys::vlr_data(bytes, extended),
        })
    }

    /// Writes head and data to the front of `dst`, and answers how many bytes that is; what lies past them stays. Refused
    /// with 24 where a VLR has more than 65,535 bytes of data, and with 22 where `dst` is too small.
    pub fn write(&self, dst: &mut [u8]) -> Result<usize, Refusal> {
        let head = VlrHead {
            numbers: [
                u64::from(self.reserved),
                u64::from(self.record_id),
                self.data.len() as u64,
            ],
            user_id: self.user_id,
            description: self.description,
        };
        sys::vlr_write(self.extended, &head, self.data, dst)
    }

    /// The bytes of head and data.
    pub fn to_vec(&self) -> Result<Vec<u8>, Refusal> {
        let mut bytes = vec![0; self.size()];
        self.write(&mut bytes)?;
        Ok(bytes)
    }

    /// The bytes of head and data together.
    pub fn size(&self) -> usize {
        sys::vlr_head_size(self.extended).saturating_add(self.data.len())
    }

    /// The text of the user id.
    pub fn user(&self) -> Cow<'_, str> {
        text::text(&self.user_id)
    }

    /// The text of the description.
    pub fn about(&self) -> Cow<'_, str> {
        text::text(&self.description)
    }
}

#[cfg(test)]
mod tests {
    use super::Vlr;

    #[test]
    fn both_kinds_are_written_and_read_again() {
        for (extended, head) in [(false, 54), (true, 60)] {
            let mut vlr = Vlr::new(extended, "LASF_Spec", 4, "extra bytes", b"some data");
            vlr.reserved = 0xabcd;
            let bytes = vlr.to_vec().unwrap();
            assert_eq!(bytes.len(), head + 9);
            assert_eq!(vlr.size(), bytes.len());
            let read = Vlr::read(&bytes, extended).unwrap();
            assert_eq!(read, vlr);
            assert_eq!(
                (read.user(), read.about()),
                ("LASF_Spec".into(), "extra bytes".into())
            );
            let refusal = Vlr::read(&bytes[..bytes.len() - 1], extended).unwrap_err();
            assert_eq!((refusal.number(), refusal.value()), (1, bytes.len() as u64));
        }
    }

    #[test]
    fn no_more_data_than_a_length_states() {
        let data = vec![7; 65_536];
        let long = Vlr::new(false, "user", 1, "", &data);
        assert_eq!(long.to_vec().unwrap_err().number(), 24);
        let most = Vlr {
            data: &data[1..],
            ..long
        };
        assert_eq!(most.to_vec().unwrap().len(), 54 + 65_535);
        let extended = Vlr {
            extended: true,
            ..long
        };
        assert_eq!(extended.to_vec().unwrap().len(), 60 + 65_536);
    }

    #[test]
    fn no_room_leaves_the_destination() {
        let mut dst = [0xa5; 53];
        let refusal = Vlr::new(false, "user", 1, "", b"")
            .write(&mut dst)
            .unwrap_err();
        assert_eq!((refusal.number(), refusal.value()), (22, 54));
        assert_eq!(dst, [0xa5; 53]);
    }
}
