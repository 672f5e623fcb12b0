//! What the modules of the four forms have in common, written once.

/// The four conversion calls of each pair that starts from a form.
macro_rules! conversions {
    (
        from $form:literal: $module:ident, [$unit:ty], $sample:literal;
        $(
            to $target:literal: $target_module:ident, [$target_unit:ty], $target_sample:literal;
            most |$n:ident| $most:expr;
            $convert:ident = $jk_convert:ident;
            $length:ident = $jk_length:ident;
            $vec:ident, $max_length:ident, $back:ident;
        )*
    ) => { $(
        #[doc = concat!("Converts ", $form, " to ", $target, " and returns how many code units it wrote.")]
        ///
        /// They stand at the front of `dst`; its rest is untouched.
        #[doc = concat!("[`", stringify!($length), "`] tells beforehand how many the text takes, and")]
        #[doc = concat!("[`", stringify!($max_length), "`] how many a text of n units can take.")]
        ///
        /// # Errors
        ///
        /// A text of more than [`MAX_UNITS`](crate::MAX_UNITS) units is refused; else the fault at the
        /// lowest offset decides; else a `dst` that is too short for the whole result is
        /// [`Fault::BufferTooShort`](crate::Fault::BufferTooShort). A refusal leaves all of `dst` as it
        /// was. FFFE and FFFF are a fault here, [`Fault::NonCharacter`](crate::Fault::NonCharacter).
        ///
        /// # Examples
        ///
        /// ```
        #[doc = concat!("use jiskromet::{", stringify!($module), ", ", stringify!($target_module), "};")]
        ///
        #[doc = concat!("let text = ", $sample, "; // 4 °C")]
        #[doc = concat!("let mut buffer = [0; ", stringify!($module), "::", stringify!($max_length), "(16)]; // enough for 16 units")]
        #[doc = concat!("let written = ", stringify!($module), "::", stringify!($convert), "(&text, &mut buffer)?;")]
        #[doc = concat!("assert_eq!(buffer[..written], ", $target_sample, ");")]
        ///
        #[doc = concat!("let back = ", stringify!($target_module), "::", stringify!($back), "(&buffer[..written])?;")]
        /// assert_eq!(back, text);
        /// # Ok::<(), jiskromet::Refusal>(())
        /// ```
        #[inline]
        pub fn $convert(src: &[$unit], dst: &mut [$target_unit]) -> Result<usize, Refusal> {
            // SAFETY: pointers and lengths are those of two slices, and one that is borrowed mutably
            // overlaps no other.
            unsafe { sys::$jk_convert(src.as_ptr(), src.len(), dst.as_mut_ptr(), dst.len()) }.result()
        }

        #[doc = concat!("Tells how many ", $target, " code units a text in ", $form, " takes.")]
        ///
        /// # Errors
        ///
        #[doc = concat!("Those of [`", stringify!($convert), "`], but for a buffer that is too short.")]
        ///
        /// # Examples
        ///
        /// ```
        #[doc = concat!("let text = ", $sample, "; // 4 °C")]
        #[doc = concat!("let result = ", $target_sample, ";")]
        #[doc = concat!("assert_eq!(jiskromet::", stringify!($module), "::", stringify!($length), "(&text), Ok(result.len()));")]
        /// ```
        #[inline]
        pub fn $length(src: &[$unit]) -> Result<usize, Refusal> {
            // SAFETY: pointer and length are those of a slice.
            unsafe { sys::$jk_length(src.as_ptr(), src.len()) }.result()
        }

        #[doc = concat!("Converts ", $form, " to ", $target, " in a vector that is as long as the result.")]
        ///
        #[doc = concat!("It measures with [`", stringify!($length), "`], allocates once and converts.")]
        ///
        /// # Errors
        ///
        #[doc = concat!("Those of [`", stringify!($length), "`].")]
        ///
        /// # Examples
        ///
        /// ```
        #[doc = concat!("let text = ", $sample, "; // 4 °C")]
        #[doc = concat!("assert_eq!(jiskromet::", stringify!($module), "::", stringify!($vec), "(&text)?, ", $target_sample, ");")]
        /// # Ok::<(), jiskromet::Refusal>(())
        /// ```
        pub fn $vec(src: &[$unit]) -> Result<Vec<$target_unit>, Refusal> {
            let mut dst = vec![0; $length(src)?];
            $convert(src, &mut dst)?;
            Ok(dst)
        }

        #[doc = concat!("The most ", $target, " code units that a text of n units in ", $form, " can take: ", stringify!($most), ".")]
        ///
        /// Texts of more than [`MAX_UNITS`](crate::MAX_UNITS) units are refused: from there on the answer
        /// stays the same.
        #[must_use]
        pub const fn $max_length($n: usize) -> usize {
            let $n = if $n < MAX_UNITS { $n } else { MAX_UNITS };
            $most
        }
    )* };
}

/// The calls that read a form: lossy decoding, the item at an offset, the item
/// that covers one, all items.
macro_rules! readers {
    (
        $form:literal, [$unit:ty], longest $longest:literal;
        $(#[$decode_lossy:meta])*
        decode_lossy = $jk_decode_lossy:ident;
        $(#[$item_at:meta])*
        item_at = $jk_item_at:ident;
        $(#[$item_covering:meta])*
        item_covering = $jk_item_covering:ident;
        $(#[$items:meta])*
        items;
    ) => {
        #[doc = concat!("How many code units the longest item of ", $form, " has.")]
        pub const LONGEST_ITEM: usize = $longest;

        #[doc = concat!("Decodes a text in ", $form, " whatever happened to it: what is no character becomes a mark.")]
        ///
        /// For each item of the text, in order, its value stands at the front of `values`
        /// ([`MARK_VALUE`](crate::MARK_VALUE) for a mark) and the offset where it starts at the front of
        /// `starts`; the rest of both is untouched. Characters before and after damage come out as if
        /// there were none. FFFE and FFFF, which a conversion refuses, are characters here.
        ///
        /// # Errors
        ///
        /// Only for a text of more than [`MAX_UNITS`](crate::MAX_UNITS) units, and for fewer cells than
        /// items in either buffer, [`Fault::BufferTooShort`](crate::Fault::BufferTooShort). As many cells
        /// as the text has units are always enough. A refusal leaves both buffers as they were.
        ///
        /// # Examples
        ///
        $(#[$decode_lossy])*
        #[inline]
        pub fn decode_lossy(
            text: &[$unit],
            values: &mut [u32],
            starts: &mut [u32],
        ) -> Result<Counts, Refusal> {
            // SAFETY: pointers and lengths are those of three slices, and those that are borrowed mutably
            // overlap no other.
            unsafe {
                sys::$jk_decode_lossy(
                    text.as_ptr(),
                    text.len(),
                    values.as_mut_ptr(),
                    values.len(),
                    starts.as_mut_ptr(),
                    starts.len(),
                )
            }
            .result()
        }

        #[doc = concat!("The item at an offset of a text in ", $form, ", read as though the text began there.")]
        ///
        /// `None` at the text's end. The next item is at `offset + length`. The cost does not grow with
        /// the text.
        ///
        /// # Errors
        ///
        /// Only for a text of more than [`MAX_UNITS`](crate::MAX_UNITS) units, and for an offset past its
        /// end. Damage is no refusal: it is an item, a mark.
        ///
        /// # Examples
        ///
        $(#[$item_at])*
        #[inline]
        pub fn item_at(text: &[$unit], offset: usize) -> Result<Option<Item>, Refusal> {
            // SAFETY: pointer and length are those of a slice.
            unsafe { sys::$jk_item_at(text.as_ptr(), text.len(), offset) }.item_or_end()
        }

        #[doc = concat!("The item that covers an offset of a text in ", $form, ", in the reading of the whole text.")]
        ///
        /// All offsets of an item give the same answer, that of [`item_at`] where the item starts. The
        /// cost does not grow with the text: the item starts less than [`LONGEST_ITEM`] units back.
        ///
        /// # Errors
        ///
        /// Only for a text of more than [`MAX_UNITS`](crate::MAX_UNITS) units, and for an offset at or
        /// past its end. Damage is no refusal: it is an item, a mark.
        ///
        /// # Examples
        ///
        $(#[$item_covering])*
        #[inline]
        pub fn item_covering(text: &[$unit], offset: usize) -> Result<Item, Refusal> {
            // SAFETY: pointer and length are those of a slice.
            unsafe { sys::$jk_item_covering(text.as_ptr(), text.len(), offset) }.item()
        }

        #[doc = concat!("The items of a text in ", $form, ", from either end.")]
        ///
        /// # Errors
        ///
        /// Only for a text of more than [`MAX_UNITS`](crate::MAX_UNITS) units.
        ///
        /// # Examples
        ///
        $(#[$items])*
        pub fn items(text: &[$unit]) -> Result<Items<'_>, Refusal> {
            // The library says whether the text is too long; what stands at 0 is read again.
            item_at(text, 0)?;
            Ok(Items {
                text,
                front: 0,
                back: text.len(),
            })
        }

        #[doc = concat!("An iterator over the items of a text in ", $form, ", made by [`items`].")]
        ///
        /// It yields an [`Item`] and no `Result`: of the two faults that a reader refuses by, an offset
        /// beyond the text cannot come up here, and whether the text is too long is settled once, by
        /// [`items`]. Damage is no error to stop at, but an item that is a mark; [`Item::value`] makes an
        /// error of it for who wants one.
        ///
        /// Each step has the same small cost at both ends, and nothing is allocated.
        #[derive(Clone, Debug)]
        pub struct Items<'a> {
            text: &'a [$unit],
            // What is left; both are borders of items in the reading of the whole text.
            front: usize,
            back: usize,
        }

        impl Iterator for Items<'_> {
            type Item = Item;

            fn next(&mut self) -> Option<Item> {
                if self.front == self.back {
                    return None;
                }
                let item = item_at(self.text, self.front).expect(NOT_REFUSED)?;
                self.front += item.length;
                Some(item)
            }

            fn size_hint(&self) -> (usize, Option<usize>) {
                let units = self.back - self.front;
                (units.div_ceil(LONGEST_ITEM), Some(units))
            }
        }

        impl DoubleEndedIterator for Items<'_> {
            fn next_back(&mut self) -> Option<Item> {
                if self.front == self.back {
                    return None;
                }
                let item = item_covering(self.text, self.back - 1).expect(NOT_REFUSED);
                self.back = item.offset;
                Some(item)
            }
        }

        impl FusedIterator for Items<'_> {}
    };
}
