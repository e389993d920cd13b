//! Tables as bytes, and why bytes are none.

#[cfg(feature = "alloc")]
use alloc::{vec, vec::Vec};
use core::error::Error;
use core::fmt;
use core::ops::Deref;

#[cfg(feature = "alloc")]
use crate::ImageFault;
use crate::table::Header;
#[cfg(feature = "alloc")]
use crate::{Metric, Weights};
use crate::{Order, Refusal, Row, Table, ffi};

/// Why an image was refused, and what is wrong in it.
///
/// It is written as its fault is: for one, `slot 4 (slot 3 of bucket 2), its tag at byte 56 has country 0`; without one
/// as the refusal is.
#[derive(Clone, Debug, PartialEq, Eq, Hash)]
pub struct ImageRefusal {
    /// Why, as the archive says it.
    pub refusal: Refusal,
    /// What is wrong in the image, where its bytes show it.
    #[cfg(feature = "alloc")]
    pub fault: Option<ImageFault>,
}

impl fmt::Display for ImageRefusal {
    fn fmt(&self, f: &mut fmt::Formatter<'_>) -> fmt::Result {
        #[cfg(feature = "alloc")]
        if let Some(fault) = &self.fault {
            return fault.fmt(f);
        }
        self.refusal.fmt(f)
    }
}

/// Its source is the refusal, where its own words are those of a fault.
impl Error for ImageRefusal {
    #[cfg(feature = "alloc")]
    fn source(&self) -> Option<&(dyn Error + 'static)> {
        self.fault.as_ref().map(|_| &self.refusal as _)
    }
}

impl From<Refusal> for ImageRefusal {
    fn from(refusal: Refusal) -> ImageRefusal {
        ImageRefusal {
            refusal,
            #[cfg(feature = "alloc")]
            fault: None,
        }
    }
}

impl ImageRefusal {
    // Without an image, which a part of states need not hold, there is no fault.
    #[cfg(feature = "alloc")]
    pub(crate) fn check(reply: ffi::Loaded, image: Option<&[u8]>) -> Result<(), ImageRefusal> {
        let told = |refusal| image.and_then(|image| ImageFault::of(image, refusal, reply.slot));
        Refusal::check(reply.refusal).map_err(|refusal| ImageRefusal { refusal, fault: told(refusal) })
    }

    #[cfg(not(feature = "alloc"))]
    pub(crate) fn check(reply: ffi::Loaded, _: Option<&[u8]>) -> Result<(), ImageRefusal> {
        Ok(Refusal::check(reply.refusal)?)
    }
}

// What the image's first byte says; an order that is not valid is refused whatever the lengths of areas are.
fn order_in(image: &[u8]) -> Order {
    image.first().and_then(|&order| Order::new(order.into()).ok()).unwrap_or(Order::MIN)
}

#[cfg(feature = "alloc")]
impl Table {
    /// The table that the image was written from, with [`Table::image`] or with the C call. Images from before there
    /// were weights load with weights 1, and those from before there were days with day 1 in every item.
    ///
    /// # Errors
    ///
    /// The image is checked whole. [`Refusal::BadLength`], [`Refusal::BadOrder`], [`Refusal::BadMetric`],
    /// [`Refusal::BadWeight`], [`Refusal::BadTable`], [`Refusal::BadDay`] and [`Refusal::BadImage`] say what is wrong
    /// with it, and where all fields pass [`Refusal::DuplicateTag`], [`Refusal::MisplacedItem`] and
    /// [`Refusal::BadThreshold`] what is wrong with a tree, at the lowest slot. In which field it is, and at which
    /// bytes, is in [`ImageRefusal::fault`]:
    ///
    /// ```
    /// use vpindex::{Day, Metric, Order, Profile, Refusal, Table, Tag};
    ///
    /// let mut table = Table::new(Order::new(1)?, Metric::SumOfDifferences);
    /// for national in [1, 2] {
    ///     table.add(Tag::new(36, national)?, &Profile::default(), Day::MIN)?;
    /// }
    /// let mut image = table.image();
    /// image[24] = 1; // the second tag is the first again
    /// let refused = Table::load(&image).unwrap_err();
    /// assert_eq!(refused.refusal, Refusal::DuplicateTag);
    /// assert_eq!(
    ///     refused.to_string(),
    ///     "slot 1 (slot 1 of bucket 1), its tag at byte 24 is 036000000000001, which slot 0 (slot 0 of bucket 1) has"
    /// );
    /// let fault = refused.fault.expect("the bytes show it");
    /// assert_eq!((fault.field, fault.bytes, fault.bucket), ("tag", 24..32, Some(1)));
    /// # Ok::<(), vpindex::Error>(())
    /// ```
    pub fn load(image: &[u8]) -> Result<Table, ImageRefusal> {
        Table::begun(Some(image), |rows| ffi::load(rows, image))
    }

    // By a call that writes every row that the order needs. No image is refused before the area's length is looked at.
    pub(crate) fn begun(
        image: Option<&[u8]>,
        call: impl FnOnce(&mut [Row]) -> ffi::Loaded,
    ) -> Result<Table, ImageRefusal> {
        let order = image.map_or(Order::MIN, order_in);
        let mut table = Table::blank(Header { order, metric: Metric::SumOfDifferences, weights: Weights::ONE });
        ImageRefusal::check(call(&mut table.rows), image)?;
        table.header = Header::of(&table.rows[0])?;
        Ok(table)
    }
}

impl<'a> Table<&'a mut [Row]> {
    /// As [`Table::load`], in areas that the caller lends, of any content.
    ///
    /// # Errors
    ///
    /// [`Refusal::ShortArea`] if an area has fewer rows than the image's order needs, and else as [`Table::load`]. Then
    /// both are left as they are.
    pub fn load_lent(
        rows: &'a mut [Row],
        work: &'a mut [Row],
        image: &[u8],
    ) -> Result<Table<&'a mut [Row]>, ImageRefusal> {
        if work.len() < order_in(image).work_rows() {
            return Err(Refusal::ShortArea.into());
        }
        ImageRefusal::check(ffi::load(rows, image), Some(image))?;
        Ok(Table { header: Header::of(&rows[0])?, rows, work })
    }
}

impl<A: Deref<Target = [Row]>> Table<A> {
    /// The table as bytes, which [`Table::load`] reads.
    #[cfg(feature = "alloc")]
    pub fn image(&self) -> Vec<u8> {
        let mut image = vec![0; self.image_bytes()];
        let written = self.image_into(&mut image);
        assert_eq!(written, Ok(image.len()), "the area is as long as the image");
        image
    }

    /// Writes what [`Table::image`] gives to the front of these bytes, and gives its length; bytes behind it are left
    /// as they are. [`Table::image_bytes`] are enough, and [`Order::image_bytes`] for any table of the order.
    ///
    /// # Errors
    ///
    /// [`Refusal::NoRoom`] if there are fewer bytes, and then they are left as they are.
    pub fn image_into(&self, image: &mut [u8]) -> Result<usize, Refusal> {
        let ffi::Written { refusal, length } = ffi::write(&self.rows, image);
        Refusal::check(refusal)?;
        Ok(length as usize)
    }

    /// How many bytes its image has.
    pub fn image_bytes(&self) -> usize {
        self.order().bytes_of_image(self.sizes().map(|size| size[0] as usize).sum())
    }
}
