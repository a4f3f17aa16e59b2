//! Rooms as they are handed in, and as they are drawn.

/// A room: its four corners, y grows upward, and its name.
///
/// Any numbers can be handed in; a room whose right is not greater than its
/// left, or whose top is not greater than its bottom, is
/// [refused](crate::Refusal::EMPTY_ROOM).
///
/// ```
/// use nenturxo::Room;
///
/// let unnamed = Room { left: 0, bottom: 0, right: 2, top: 1, ..Room::default() };
/// assert_eq!(unnamed.name, 0);
/// let named = Room { name: 7, ..unnamed };
/// assert_eq!(named.right, 2);
/// ```
#[derive(Clone, Copy, Debug, Default, PartialEq, Eq, Hash)]
#[repr(C)]
pub struct Room {
    /// Where its left edge is.
    pub left: u16,
    /// Where its bottom edge is.
    pub bottom: u16,
    /// Where its right edge is.
    pub right: u16,
    /// Where its top edge is.
    pub top: u16,
    /// Its name. 0 means unnamed and may be on any number of rooms; any other
    /// one that is on two rooms is [refused](crate::Refusal::NAME_TWICE).
    pub name: u16,
}

#[cfg(test)]
mod tests {
    use super::Room;
    use std::mem::offset_of;

    #[test]
    fn a_room_is_laid_out_as_the_header_says() {
        let offsets = [
            offset_of!(Room, left),
            offset_of!(Room, bottom),
            offset_of!(Room, right),
            offset_of!(Room, top),
            offset_of!(Room, name),
        ];
        assert_eq!(offsets, [0, 2, 4, 6, 8]);
        assert_eq!((size_of::<Room>(), align_of::<Room>()), (10, 2));
    }
}
