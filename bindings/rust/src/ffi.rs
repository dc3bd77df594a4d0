//! The C library. All unsafe code of the crate is in this module.
//!
//! These types keep the rules of `hayro_cmap.h` for callers. A handle begins empty, is neither cloned
//! nor copied, and is freed once, when it is dropped. Each call takes it as `&mut`, so one call at a
//! time uses it. Pointers come from references and slices: they aren't null, their targets outlive the
//! call, and the target of a `&mut` overlaps no other target.

use crate::builder::{CMapBuilder, Codes, Declaration, Given};
use crate::{CidRange, Codespace, TextRange, WritingMode};
use std::alloc::{Layout, handle_alloc_error};
use std::ffi::c_void;
use std::marker::PhantomData;
use std::ops::RangeInclusive;
use std::ptr;

const OK: u32 = 0;
const REFUSED: u32 = 1;
const NO_MEMORY: u32 = 2;
const OVER_BUDGET: u32 = 3;
const NO_ROOM: u32 = 6;

/// The number that stands for no writing mode.
const NO_MODE: u16 = 2;

/// The number of a writing mode.
fn mode_of(mode: WritingMode) -> u16 {
    match mode {
        WritingMode::Horizontal => 0,
        WritingMode::Vertical => 1,
    }
}

/// The most names that lead to a file at fault.
const MOST_NAMES: usize = 16;

/// A map, or none.
#[repr(C)]
struct RawMap {
    full: bool,
    map: *mut c_void,
}

/// A bundle, or none.
#[repr(C)]
struct RawBundle {
    full: bool,
    bundle: *mut c_void,
}

/// An encoder, or none.
#[repr(C)]
struct RawEncoder {
    full: bool,
    encoder: *mut c_void,
}

/// A loader, or none.
#[repr(C)]
struct RawLoader {
    full: bool,
    loader: *mut c_void,
}

/// A file and its name, both borrowed for `'a`.
#[repr(C)]
pub(crate) struct File<'a> {
    name: *const u8,
    name_len: usize,
    bytes: *const u8,
    bytes_len: usize,
    lent: PhantomData<&'a [u8]>,
}

/// A code of a string.
#[repr(C)]
#[derive(Clone, Copy, Default)]
pub(crate) struct RawCode {
    pub(crate) code: u32,
    pub(crate) cid: u32,
    pub(crate) byte_len: u8,
    pub(crate) in_codespace: u8,
    pub(crate) has_cid: u8,
    pub(crate) cut_short: u8,
}

/// A code of a string, with its text in a buffer for texts.
#[repr(C)]
#[derive(Clone, Copy, Default)]
pub(crate) struct RawCharacter {
    pub(crate) code: RawCode,
    has_text: u32,
    text_start: usize,
    text_len: usize,
}

impl RawCharacter {
    /// Its text in the buffer; `None` if it has none.
    pub(crate) fn text<'t>(&self, room: &'t [u8]) -> Option<&'t str> {
        let bytes = room.get(self.text_start..)?.get(..self.text_len)?;
        if self.has_text == 0 { None } else { std::str::from_utf8(bytes).ok() }
    }
}

/// How far a string is extracted.
#[repr(C)]
#[derive(Clone, Copy, Default)]
pub(crate) struct RawExtracted {
    pub(crate) made: usize,
    pub(crate) taken: usize,
    used: usize,
}

/// A declaration of texts.
#[repr(C)]
#[derive(Clone, Copy, Default)]
struct RawTextRange {
    first: u32,
    last: u32,
    units: usize,
}

/// A range of codes.
#[repr(C)]
#[derive(Clone, Copy, Default)]
struct RawCodeRange {
    first: u32,
    last: u32,
}

/// A warning with the codes or places that it concerns.
#[repr(C)]
#[derive(Clone, Copy, Default)]
pub(crate) struct RawFinding {
    pub(crate) count: u64,
    pub(crate) shown: usize,
    pub(crate) offset: usize,
    pub(crate) warning: u32,
    pub(crate) place: u32,
    pub(crate) first: u32,
    pub(crate) last: u32,
    pub(crate) byte_len: u32,
    pub(crate) first_shown: u32,
}

/// A range of codes of one length.
#[repr(C)]
#[derive(Clone, Copy)]
struct RawCodes {
    first: u32,
    last: u32,
    byte_len: u32,
}

impl RawCodes {
    /// A range without codes. At the end of a list it keeps the length from 0, which stands for all codes.
    const NONE: RawCodes = RawCodes { first: 1, last: 0, byte_len: 1 };

    fn of(codes: &Codes) -> RawCodes {
        let Codes { first, last, byte_len } = *codes;
        RawCodes { first, last, byte_len: byte_len.into() }
    }
}

/// A declaration of a file that is made; its text is borrowed for `'a`.
#[repr(C)]
struct RawDeclaration<'a> {
    kind: u16,
    byte_len: u16,
    first: u32,
    last: u32,
    cid: u32,
    text: *const u8,
    text_len: usize,
    lent: PhantomData<&'a str>,
}

impl<'a> RawDeclaration<'a> {
    fn of(declaration: &'a Declaration) -> RawDeclaration<'a> {
        let (kind, cid, text) = match &declaration.given {
            Given::Codespace => (0, 0, ""),
            Given::Cid(cid) => (1, *cid, ""),
            Given::Notdef(cid) => (2, *cid, ""),
            Given::Text(text) => (3, 0, text.as_str()),
        };
        let Codes { first, last, byte_len } = declaration.codes;
        RawDeclaration {
            kind,
            byte_len: byte_len.into(),
            first,
            last,
            cid,
            text: text.as_ptr(),
            text_len: text.len(),
            lent: PhantomData,
        }
    }
}

/// The metadata of a file that is made; its texts are borrowed for `'a`.
#[repr(C)]
struct RawFacts<'a> {
    name: *const u8,
    name_len: usize,
    registry: *const u8,
    registry_len: usize,
    ordering: *const u8,
    ordering_len: usize,
    supplement: i32,
    has_name: u8,
    has_collection: u8,
    writing_mode: u16,
    lent: PhantomData<&'a [u8]>,
}

impl<'a> RawFacts<'a> {
    fn of(file: &'a CMapBuilder) -> RawFacts<'a> {
        let name = file.name.as_deref().unwrap_or_default();
        let collection = file.collection.as_ref();
        let (registry, ordering, supplement) = match collection {
            Some(it) => (&it.registry[..], &it.ordering[..], it.supplement),
            None => (&[][..], &[][..], 0),
        };
        RawFacts {
            name: name.as_ptr(),
            name_len: name.len(),
            registry: registry.as_ptr(),
            registry_len: registry.len(),
            ordering: ordering.as_ptr(),
            ordering_len: ordering.len(),
            supplement,
            has_name: file.name.is_some().into(),
            has_collection: collection.is_some().into(),
            writing_mode: file.writing_mode.map_or(NO_MODE, mode_of),
            lent: PhantomData,
        }
    }
}

/// A piece of a text.
#[repr(C)]
#[derive(Clone, Copy, Default)]
pub(crate) struct RawPiece {
    pub(crate) text_len: usize,
    pub(crate) code_len: u32,
    pub(crate) grade: u32,
}

/// Why a file gives no map.
#[repr(C)]
#[derive(Default)]
struct RawFault {
    cause: u32,
    reason: u16,
    segment: u16,
    offset: usize,
    names: usize,
    name_lens: [usize; MOST_NAMES],
}

/// A call on a layer of a map that writes bytes to a buffer.
type LayerText = unsafe extern "C" fn(*mut RawMap, usize, *mut u8, usize, *mut usize) -> u32;

/// A call on a layer of a map that writes declarations for codes of one length to a buffer.
type LayerCids =
    unsafe extern "C" fn(*mut RawMap, usize, u8, *mut CidRange, usize, *mut usize) -> u32;

/// A call that begins to load a file.
type Load = unsafe extern "C" fn(*mut RawLoader, *const u8, usize, *mut RawBundle, u64) -> u32;

unsafe extern "C" {
    fn hayro_cmap_load(
        loader: *mut RawLoader,
        data: *const u8,
        data_len: usize,
        bundle: *mut RawBundle,
        budget: u64,
    ) -> u32;
    fn hayro_cmap_load_past_faults(
        loader: *mut RawLoader,
        data: *const u8,
        data_len: usize,
        bundle: *mut RawBundle,
        budget: u64,
    ) -> u32;
    fn hayro_cmap_wanted(
        loader: *mut RawLoader,
        room: *mut u8,
        room_len: usize,
        needed: *mut usize,
    ) -> u32;
    fn hayro_cmap_supply(
        loader: *mut RawLoader,
        bundle: *mut RawBundle,
        found: u32,
        file: *const u8,
        file_len: usize,
    ) -> u32;
    fn hayro_cmap_finish(
        map: *mut RawMap,
        loader: *mut RawLoader,
        fault: *mut RawFault,
        room: *mut u8,
        room_len: usize,
        needed: *mut usize,
    ) -> u32;
    fn hayro_cmap_loader_free(loader: *mut RawLoader);
    fn hayro_cmap_found_faults(
        loader: *mut RawLoader,
        faults: *mut RawFault,
        faults_len: usize,
        found: *mut usize,
        room: *mut u8,
        room_len: usize,
        needed: *mut usize,
    ) -> u32;
    fn hayro_cmap_message(
        fault: *const RawFault,
        room: *mut u8,
        room_len: usize,
        needed: *mut usize,
    ) -> u32;
    fn hayro_cmap_read_as(fault: *const RawFault, text: *const u8, text_len: usize) -> u32;
    fn hayro_cmap_open(
        map: *mut RawMap,
        name: *const u8,
        name_len: usize,
        bundle: *mut RawBundle,
        files: *const File<'_>,
        files_len: usize,
        budget: u64,
    ) -> u32;
    fn hayro_cmap_uses(
        data: *const u8,
        data_len: usize,
        bundle: *mut RawBundle,
        name_lens: *mut usize,
        name_lens_len: usize,
        names: *mut usize,
        room: *mut u8,
        room_len: usize,
        needed: *mut usize,
    ) -> u32;
    fn hayro_cmap_bundle_open(bundle: *mut RawBundle, bytes: *const u8, bytes_len: usize) -> u32;
    fn hayro_cmap_bundle_share(bundle: *mut RawBundle, other: *mut RawBundle) -> u32;
    fn hayro_cmap_bundle_free(bundle: *mut RawBundle);
    fn hayro_cmap_bundle_file(
        bundle: *mut RawBundle,
        name: *const u8,
        name_len: usize,
        room: *mut u8,
        room_len: usize,
        needed: *mut usize,
    ) -> u32;
    fn hayro_cmap_identity(map: *mut RawMap, vertical: bool) -> u32;
    fn hayro_cmap_share(map: *mut RawMap, other: *mut RawMap) -> u32;
    fn hayro_cmap_free(map: *mut RawMap);
    fn hayro_cmap_cid(map: *mut RawMap, code: u32, byte_len: u8, cid: *mut u32) -> bool;
    fn hayro_cmap_cid_strict(map: *mut RawMap, code: u32, byte_len: u8, cid: *mut u32) -> bool;
    fn hayro_cmap_cids(
        map: *mut RawMap,
        first: u32,
        byte_len: u8,
        absent: u32,
        cids: *mut u32,
        cids_len: usize,
    ) -> bool;
    fn hayro_cmap_decode(
        map: *mut RawMap,
        text: *const u8,
        text_len: usize,
        codes: *mut RawCode,
        codes_len: usize,
        made: *mut usize,
        taken: *mut usize,
    ) -> u32;
    fn hayro_cmap_extract(
        encoding: *mut RawMap,
        to_unicode: *mut RawMap,
        collection: *mut RawMap,
        string: *const u8,
        string_len: usize,
        characters: *mut RawCharacter,
        characters_len: usize,
        text: *mut u8,
        text_len: usize,
        extracted: *mut RawExtracted,
    ) -> u32;
    fn hayro_cmap_text(
        map: *mut RawMap,
        code: u32,
        room: *mut u8,
        room_len: usize,
        needed: *mut usize,
    ) -> u32;
    fn hayro_cmap_layers(map: *mut RawMap) -> usize;
    fn hayro_cmap_layer_name(
        map: *mut RawMap,
        layer: usize,
        room: *mut u8,
        room_len: usize,
        needed: *mut usize,
    ) -> u32;
    fn hayro_cmap_layer_registry(
        map: *mut RawMap,
        layer: usize,
        room: *mut u8,
        room_len: usize,
        needed: *mut usize,
    ) -> u32;
    fn hayro_cmap_layer_ordering(
        map: *mut RawMap,
        layer: usize,
        room: *mut u8,
        room_len: usize,
        needed: *mut usize,
    ) -> u32;
    fn hayro_cmap_layer_supplement(map: *mut RawMap, layer: usize, supplement: *mut i32) -> bool;
    fn hayro_cmap_layer_writing_mode(map: *mut RawMap, layer: usize) -> u32;
    fn hayro_cmap_codespaces(
        map: *mut RawMap,
        layer: usize,
        ranges: *mut Codespace,
        ranges_len: usize,
        needed: *mut usize,
    ) -> u32;
    fn hayro_cmap_cid_ranges(
        map: *mut RawMap,
        layer: usize,
        byte_len: u8,
        ranges: *mut CidRange,
        ranges_len: usize,
        needed: *mut usize,
    ) -> u32;
    fn hayro_cmap_notdef_ranges(
        map: *mut RawMap,
        layer: usize,
        byte_len: u8,
        ranges: *mut CidRange,
        ranges_len: usize,
        needed: *mut usize,
    ) -> u32;
    fn hayro_cmap_text_ranges(
        map: *mut RawMap,
        layer: usize,
        ranges: *mut RawTextRange,
        ranges_len: usize,
        needed: *mut usize,
    ) -> u32;
    fn hayro_cmap_text_units(
        map: *mut RawMap,
        layer: usize,
        index: usize,
        units: *mut u16,
        units_len: usize,
        needed: *mut usize,
    ) -> u32;
    fn hayro_cmap_codes_of_cid(
        map: *mut RawMap,
        cid: u32,
        byte_len: u8,
        ranges: *mut RawCodeRange,
        ranges_len: usize,
        needed: *mut usize,
    ) -> u32;
    fn hayro_cmap_lint(
        map: *mut RawMap,
        text: *const u8,
        text_len: usize,
        to_unicode: bool,
        shown: *const u32,
        shown_len: usize,
        findings: *mut RawFinding,
        findings_len: usize,
        needed: *mut usize,
    ) -> u32;
    fn hayro_cmap_warning_name(
        warning: u32,
        room: *mut u8,
        room_len: usize,
        needed: *mut usize,
    ) -> u32;
    fn hayro_cmap_make(
        facts: *const RawFacts<'_>,
        declarations: *const RawDeclaration<'_>,
        declarations_len: usize,
        room: *mut u8,
        room_len: usize,
        needed: *mut usize,
    ) -> u32;
    fn hayro_cmap_write(
        map: *mut RawMap,
        codes: *const RawCodes,
        codes_len: usize,
        room: *mut u8,
        room_len: usize,
        needed: *mut usize,
    ) -> u32;
    fn hayro_cmap_encoder_build_with(
        encoder: *mut RawEncoder,
        encoding: *mut RawMap,
        to_unicode: *mut RawMap,
        collection: *mut RawMap,
        unicode: *mut RawMap,
        exact: bool,
    ) -> u32;
    fn hayro_cmap_encoder_share(encoder: *mut RawEncoder, other: *mut RawEncoder) -> u32;
    fn hayro_cmap_encoder_free(encoder: *mut RawEncoder);
    fn hayro_cmap_encode(
        encoder: *mut RawEncoder,
        text: *const u8,
        text_len: usize,
        room: *mut u8,
        room_len: usize,
        needed: *mut usize,
        offset: *mut usize,
    ) -> u32;
    fn hayro_cmap_encode_pieces(
        encoder: *mut RawEncoder,
        text: *const u8,
        text_len: usize,
        pieces: *mut RawPiece,
        pieces_len: usize,
        needed: *mut usize,
        offset: *mut usize,
    ) -> u32;
    fn hayro_cmap_encode_lossy(
        encoder: *mut RawEncoder,
        text: *const u8,
        text_len: usize,
        missing: *const u8,
        missing_len: usize,
        room: *mut u8,
        room_len: usize,
        needed: *mut usize,
    ) -> u32;
    fn hayro_cmap_fold(
        text: *const u8,
        text_len: usize,
        room: *mut u8,
        room_len: usize,
        needed: *mut usize,
        offset: *mut usize,
    ) -> u32;
    fn hayro_cmap_unicode_name(
        collection: *const u8,
        collection_len: usize,
        mode: u32,
        room: *mut u8,
        room_len: usize,
        needed: *mut usize,
    ) -> u32;
    fn hayro_cmap_version(room: *mut u8, room_len: usize, needed: *mut usize) -> u32;
}

/// Ends the program as Rust's collections do. The library doesn't report the size of its request; the layout
/// stands in for it.
fn out_of_memory() -> ! {
    handle_alloc_error(Layout::new::<RawMap>())
}

/// Ends the program if this is the status of a call that ran out of memory.
fn expect_memory(status: u32) {
    if status == NO_MEMORY {
        out_of_memory();
    }
}

/// The items that `ask` writes to a buffer of `first` items. `ask` is called again if the buffer is too short.
/// `None` if there is no answer.
fn written<T: Clone + Default>(
    first: usize,
    mut ask: impl FnMut(&mut [T], &mut usize) -> u32,
) -> Option<Vec<T>> {
    let mut room = vec![T::default(); first];
    let mut needed = 0;
    loop {
        match ask(&mut room, &mut needed) {
            OK => {
                room.truncate(needed);
                return Some(room);
            }
            NO_ROOM => room.resize(needed, T::default()),
            NO_MEMORY => out_of_memory(),
            _ => return None,
        }
    }
}

/// The length of a buffer in which most names and texts fit, in bytes.
const SHORT: usize = 64;

/// The length of a buffer in which many files fit, in bytes.
const LONG: usize = 1 << 16;

/// Most strings have at most this many bytes for each byte of their text.
const BYTES_EACH: usize = 2;

/// A map of the library.
pub(crate) struct MapHandle(RawMap);

// SAFETY: a handle may move to another thread if the calls are ordered. `&mut` orders them.
unsafe impl Send for MapHandle {}

impl Drop for MapHandle {
    fn drop(&mut self) {
        // SAFETY: see the head of the module. This is the one call that frees the handle.
        unsafe { hayro_cmap_free(&mut self.0) }
    }
}

/// Why a file gives no map, by the numbers of the library, and the names that lead to the file at
/// fault.
#[derive(Clone, Debug, PartialEq, Eq)]
pub(crate) struct Fault {
    pub(crate) cause: u32,
    pub(crate) reason: u16,
    pub(crate) segment: u16,
    pub(crate) offset: usize,
    pub(crate) names: Vec<Vec<u8>>,
}

impl Fault {
    fn of(raw: &RawFault, room: &[u8]) -> Fault {
        let lens = raw.name_lens.iter().take(raw.names);
        Fault {
            cause: raw.cause,
            reason: raw.reason,
            segment: raw.segment,
            offset: raw.offset,
            names: split(room, lens.copied()),
        }
    }

    /// Faults whose names follow one another in a buffer.
    fn each(raw: &[RawFault], mut room: &[u8]) -> Vec<Fault> {
        let next = |raw: &RawFault| {
            let (names, rest) = room.split_at(raw.name_lens.iter().take(raw.names).sum());
            room = rest;
            Fault::of(raw, names)
        };
        raw.iter().map(next).collect()
    }

    fn raw(&self) -> RawFault {
        let mut name_lens = [0; MOST_NAMES];
        for (len, name) in name_lens.iter_mut().zip(&self.names) {
            *len = name.len();
        }
        RawFault {
            cause: self.cause,
            reason: self.reason,
            segment: self.segment,
            offset: self.offset,
            names: self.names.len(),
            name_lens,
        }
    }

    /// What is wrong, in English.
    pub(crate) fn message(&self) -> Option<Vec<u8>> {
        let raw = self.raw();
        written(2 * SHORT, |room, needed| {
            // SAFETY: see the head of the module.
            unsafe { hayro_cmap_message(&raw, room.as_mut_ptr(), room.len(), needed) }
        })
    }

    /// The number of the `ReadAs` of the part at fault in a text, or 0.
    pub(crate) fn read_as(&self, text: &[u8]) -> u32 {
        let raw = self.raw();
        // SAFETY: see the head of the module.
        unsafe { hayro_cmap_read_as(&raw, text.as_ptr(), text.len()) }
    }
}

/// What `hayro_cmap_open` answers.
pub(crate) enum Opened {
    Map(MapHandle),
    /// The file, or one that it uses, is refused.
    Refused,
    /// There is no file of this name.
    Absent,
}

impl MapHandle {
    pub(crate) fn empty() -> MapHandle {
        MapHandle(RawMap { full: false, map: ptr::null_mut() })
    }

    /// The map of a name for which the caller has no file.
    pub(crate) fn open(name: &[u8], bundle: &mut BundleHandle, budget: u64) -> Opened {
        let mut map = MapHandle::empty();
        let files: [File<'_>; 0] = [];
        // SAFETY: see the head of the module.
        let status = unsafe {
            hayro_cmap_open(
                &mut map.0,
                name.as_ptr(),
                name.len(),
                &mut bundle.0,
                files.as_ptr(),
                files.len(),
                budget,
            )
        };
        match status {
            OK => Opened::Map(map),
            REFUSED | OVER_BUDGET => Opened::Refused,
            NO_MEMORY => out_of_memory(),
            _ => Opened::Absent,
        }
    }

    /// Identity-H, or Identity-V.
    pub(crate) fn identity(vertical: bool) -> MapHandle {
        let mut map = MapHandle::empty();
        // SAFETY: see the head of the module.
        expect_memory(unsafe { hayro_cmap_identity(&mut map.0, vertical) });
        map
    }

    pub(crate) fn cid(&mut self, code: u32, byte_len: u8) -> Option<u32> {
        let mut cid = 0;
        // SAFETY: see the head of the module.
        unsafe { hayro_cmap_cid(&mut self.0, code, byte_len, &mut cid) }.then_some(cid)
    }

    pub(crate) fn cid_strict(&mut self, code: u32, byte_len: u8) -> Option<u32> {
        let mut cid = 0;
        // SAFETY: see the head of the module.
        unsafe { hayro_cmap_cid_strict(&mut self.0, code, byte_len, &mut cid) }.then_some(cid)
    }

    /// Writes the CIDs of consecutive codes.
    pub(crate) fn cids(&mut self, first: u32, byte_len: u8, absent: u32, cids: &mut [u32]) {
        // SAFETY: see the head of the module.
        unsafe {
            hayro_cmap_cids(&mut self.0, first, byte_len, absent, cids.as_mut_ptr(), cids.len())
        };
    }

    /// Cuts a string into as many codes as fit. It returns their number, and their number of bytes in the
    /// string.
    pub(crate) fn decode(&mut self, string: &[u8], codes: &mut [RawCode]) -> (usize, usize) {
        let (mut made, mut taken) = (0, 0);
        // SAFETY: see the head of the module.
        unsafe {
            hayro_cmap_decode(
                &mut self.0,
                string.as_ptr(),
                string.len(),
                codes.as_mut_ptr(),
                codes.len(),
                &mut made,
                &mut taken,
            )
        };
        (made, taken)
    }

    /// Cuts a string into codes with their texts, as many as fit. The other maps may be empty.
    pub(crate) fn extract(
        &mut self,
        to_unicode: &mut MapHandle,
        collection: &mut MapHandle,
        string: &[u8],
        characters: &mut [RawCharacter],
        text: &mut [u8],
    ) -> RawExtracted {
        let mut extracted = RawExtracted::default();
        // SAFETY: see the head of the module.
        let status = unsafe {
            hayro_cmap_extract(
                &mut self.0,
                &mut to_unicode.0,
                &mut collection.0,
                string.as_ptr(),
                string.len(),
                characters.as_mut_ptr(),
                characters.len(),
                text.as_mut_ptr(),
                text.len(),
                &mut extracted,
            )
        };
        expect_memory(status);
        extracted
    }

    /// Passes the text of a code to `take`, and returns the result.
    pub(crate) fn text<R>(&mut self, code: u32, take: impl FnOnce(&str) -> R) -> Option<R> {
        let mut room = [0; SHORT];
        let mut needed = 0;
        match self.ask_text(code, &mut room, &mut needed) {
            OK => std::str::from_utf8(&room[..needed]).ok().map(take),
            NO_ROOM => {
                let text = written(needed, |room, needed| self.ask_text(code, room, needed))?;
                std::str::from_utf8(&text).ok().map(take)
            }
            status => {
                expect_memory(status);
                None
            }
        }
    }

    fn ask_text(&mut self, code: u32, room: &mut [u8], needed: &mut usize) -> u32 {
        // SAFETY: see the head of the module.
        unsafe { hayro_cmap_text(&mut self.0, code, room.as_mut_ptr(), room.len(), needed) }
    }

    pub(crate) fn layers(&mut self) -> usize {
        // SAFETY: see the head of the module.
        unsafe { hayro_cmap_layers(&mut self.0) }
    }

    pub(crate) fn name(&mut self, layer: usize) -> Option<Vec<u8>> {
        self.layer_text(hayro_cmap_layer_name, layer)
    }

    pub(crate) fn registry(&mut self, layer: usize) -> Option<Vec<u8>> {
        self.layer_text(hayro_cmap_layer_registry, layer)
    }

    pub(crate) fn ordering(&mut self, layer: usize) -> Option<Vec<u8>> {
        self.layer_text(hayro_cmap_layer_ordering, layer)
    }

    fn layer_text(&mut self, call: LayerText, layer: usize) -> Option<Vec<u8>> {
        written(SHORT, |room, needed| {
            // SAFETY: see the head of the module. `call` is a function of the library.
            unsafe { call(&mut self.0, layer, room.as_mut_ptr(), room.len(), needed) }
        })
    }

    pub(crate) fn supplement(&mut self, layer: usize) -> Option<i32> {
        let mut supplement = 0;
        // SAFETY: see the head of the module.
        unsafe { hayro_cmap_layer_supplement(&mut self.0, layer, &mut supplement) }
            .then_some(supplement)
    }

    /// The number of a writing mode: 0 for horizontal, 1 for vertical, 2 for none.
    pub(crate) fn writing_mode(&mut self, layer: usize) -> u32 {
        // SAFETY: see the head of the module.
        unsafe { hayro_cmap_layer_writing_mode(&mut self.0, layer) }
    }

    pub(crate) fn codespaces(&mut self, layer: usize) -> Vec<Codespace> {
        let ranges = written(8, |ranges: &mut [Codespace], needed| {
            // SAFETY: see the head of the module.
            unsafe {
                hayro_cmap_codespaces(&mut self.0, layer, ranges.as_mut_ptr(), ranges.len(), needed)
            }
        });
        ranges.unwrap_or_default()
    }

    pub(crate) fn cid_ranges(&mut self, layer: usize, byte_len: u8) -> Vec<CidRange> {
        self.layer_cids(hayro_cmap_cid_ranges, layer, byte_len)
    }

    pub(crate) fn notdef_ranges(&mut self, layer: usize, byte_len: u8) -> Vec<CidRange> {
        self.layer_cids(hayro_cmap_notdef_ranges, layer, byte_len)
    }

    fn layer_cids(&mut self, call: LayerCids, layer: usize, byte_len: u8) -> Vec<CidRange> {
        let ranges = written(8, |ranges: &mut [CidRange], needed| {
            // SAFETY: see the head of the module. `call` is a function of the library.
            unsafe { call(&mut self.0, layer, byte_len, ranges.as_mut_ptr(), ranges.len(), needed) }
        });
        ranges.unwrap_or_default()
    }

    pub(crate) fn text_ranges(&mut self, layer: usize) -> Vec<TextRange> {
        let ranges = written(8, |ranges: &mut [RawTextRange], needed| {
            // SAFETY: see the head of the module.
            unsafe {
                hayro_cmap_text_ranges(
                    &mut self.0,
                    layer,
                    ranges.as_mut_ptr(),
                    ranges.len(),
                    needed,
                )
            }
        });
        let ranges = ranges.unwrap_or_default().into_iter().enumerate();
        ranges
            .map(|(index, range)| TextRange {
                first: range.first,
                last: range.last,
                units: self.text_units(layer, index, range.units),
            })
            .collect()
    }

    /// The units of the declaration of texts at an index; it has `count` units.
    fn text_units(&mut self, layer: usize, index: usize, count: usize) -> Vec<u16> {
        let units = written(count, |units: &mut [u16], needed| {
            // SAFETY: see the head of the module.
            unsafe {
                hayro_cmap_text_units(
                    &mut self.0,
                    layer,
                    index,
                    units.as_mut_ptr(),
                    units.len(),
                    needed,
                )
            }
        });
        units.unwrap_or_default()
    }

    pub(crate) fn codes_of_cid(&mut self, cid: u32, byte_len: u8) -> Vec<RangeInclusive<u32>> {
        let ranges = written(8, |ranges: &mut [RawCodeRange], needed| {
            // SAFETY: see the head of the module.
            unsafe {
                hayro_cmap_codes_of_cid(
                    &mut self.0,
                    cid,
                    byte_len,
                    ranges.as_mut_ptr(),
                    ranges.len(),
                    needed,
                )
            }
        });
        let ranges = ranges.unwrap_or_default().into_iter();
        ranges.map(|range| range.first..=range.last).collect()
    }

    /// What looks wrong in the file of the map. The shown codes are in ascending order, each once.
    pub(crate) fn lint(&mut self, text: &[u8], to_unicode: bool, shown: &[u32]) -> Vec<RawFinding> {
        let found = written(8, |found: &mut [RawFinding], needed| {
            // SAFETY: see the head of the module.
            unsafe {
                hayro_cmap_lint(
                    &mut self.0,
                    text.as_ptr(),
                    text.len(),
                    to_unicode,
                    shown.as_ptr(),
                    shown.len(),
                    found.as_mut_ptr(),
                    found.len(),
                    needed,
                )
            }
        });
        found.unwrap_or_default()
    }

    /// The text of one file that has the answers of the map, or only its answers for these codes.
    pub(crate) fn write(&mut self, codes: Option<&[Codes]>) -> Option<Vec<u8>> {
        let codes = codes.map(|codes| codes.iter().map(RawCodes::of).chain([RawCodes::NONE]));
        let codes: Vec<RawCodes> = codes.into_iter().flatten().collect();
        written(LONG, |room, needed| {
            // SAFETY: see the head of the module.
            unsafe {
                hayro_cmap_write(
                    &mut self.0,
                    codes.as_ptr(),
                    codes.len(),
                    room.as_mut_ptr(),
                    room.len(),
                    needed,
                )
            }
        })
    }
}

/// A bundle of the library, or none.
pub(crate) struct BundleHandle(RawBundle);

// SAFETY: as for `MapHandle`.
unsafe impl Send for BundleHandle {}

impl Drop for BundleHandle {
    fn drop(&mut self) {
        // SAFETY: see the head of the module. This is the one call that frees the handle.
        unsafe { hayro_cmap_bundle_free(&mut self.0) }
    }
}

impl BundleHandle {
    pub(crate) fn empty() -> BundleHandle {
        BundleHandle(RawBundle { full: false, bundle: ptr::null_mut() })
    }

    /// The bundle of these bytes, which are copied.
    pub(crate) fn open(bytes: &[u8]) -> Option<BundleHandle> {
        let mut bundle = BundleHandle::empty();
        // SAFETY: see the head of the module.
        let status = unsafe { hayro_cmap_bundle_open(&mut bundle.0, bytes.as_ptr(), bytes.len()) };
        expect_memory(status);
        (status == OK).then_some(bundle)
    }

    /// The bytes of the file of a name.
    pub(crate) fn file(&mut self, name: &[u8]) -> Option<Vec<u8>> {
        written(0, |room, needed| {
            // SAFETY: see the head of the module.
            unsafe {
                hayro_cmap_bundle_file(
                    &mut self.0,
                    name.as_ptr(),
                    name.len(),
                    room.as_mut_ptr(),
                    room.len(),
                    needed,
                )
            }
        })
    }

    /// The names that a file uses; `None` if it is outside the grammar.
    pub(crate) fn uses(&mut self, data: &[u8]) -> Option<Vec<Vec<u8>>> {
        let (mut lens, mut room) = (vec![0; 4], vec![0; SHORT]);
        let (mut names, mut needed) = (0, 0);
        loop {
            // SAFETY: see the head of the module.
            let status = unsafe {
                hayro_cmap_uses(
                    data.as_ptr(),
                    data.len(),
                    &mut self.0,
                    lens.as_mut_ptr(),
                    lens.len(),
                    &mut names,
                    room.as_mut_ptr(),
                    room.len(),
                    &mut needed,
                )
            };
            match status {
                OK => return Some(split(&room, lens.into_iter().take(names))),
                NO_ROOM => {
                    lens.resize(names, 0);
                    room.resize(needed, 0);
                }
                NO_MEMORY => out_of_memory(),
                _ => return None,
            }
        }
    }
}

/// What the caller has of a wanted file.
#[derive(Clone, Copy)]
#[repr(u32)]
pub(crate) enum Found {
    /// Nothing. The file may be in the bundle, or built in.
    Elsewhere = 0,
    /// Its bytes.
    Given = 1,
    /// Nothing. No file has the name.
    Nowhere = 2,
}

/// A loader of the library, and its bundle, which may be empty.
pub(crate) struct LoaderHandle {
    loader: RawLoader,
    bundle: BundleHandle,
}

// SAFETY: as for `MapHandle`.
unsafe impl Send for LoaderHandle {}

// SAFETY: no call takes a `&LoaderHandle`.
unsafe impl Sync for LoaderHandle {}

impl Drop for LoaderHandle {
    fn drop(&mut self) {
        // SAFETY: see the head of the module. This is the one call that frees the handle.
        unsafe { hayro_cmap_loader_free(&mut self.loader) }
    }
}

impl LoaderHandle {
    /// A loader of a file.
    pub(crate) fn load(data: &[u8], bundle: &mut BundleHandle, budget: u64) -> LoaderHandle {
        LoaderHandle::begun(hayro_cmap_load, data, bundle, budget)
    }

    /// A loader of a file past its faults.
    pub(crate) fn load_past_faults(
        data: &[u8],
        bundle: &mut BundleHandle,
        budget: u64,
    ) -> LoaderHandle {
        LoaderHandle::begun(hayro_cmap_load_past_faults, data, bundle, budget)
    }

    fn begun(load: Load, data: &[u8], bundle: &mut BundleHandle, budget: u64) -> LoaderHandle {
        let loader = RawLoader { full: false, loader: ptr::null_mut() };
        let mut made = LoaderHandle { loader, bundle: bundle.share() };
        // SAFETY: see the head of the module.
        expect_memory(unsafe {
            load(&mut made.loader, data.as_ptr(), data.len(), &mut made.bundle.0, budget)
        });
        made
    }

    /// The name of the wanted file.
    pub(crate) fn wanted(&mut self) -> Option<Vec<u8>> {
        written(SHORT, |room, needed| {
            // SAFETY: see the head of the module.
            unsafe { hayro_cmap_wanted(&mut self.loader, room.as_mut_ptr(), room.len(), needed) }
        })
    }

    /// Whether the bundle has a file with this name.
    pub(crate) fn is_in_bundle(&mut self, name: &[u8]) -> bool {
        self.bundle.file(name).is_some()
    }

    /// Supplies the wanted file, if one is wanted.
    pub(crate) fn supply(&mut self, found: Found, file: &[u8]) {
        // SAFETY: see the head of the module.
        expect_memory(unsafe {
            hayro_cmap_supply(
                &mut self.loader,
                &mut self.bundle.0,
                found as u32,
                file.as_ptr(),
                file.len(),
            )
        });
    }

    /// The faults of a loader past faults, if no file is wanted.
    pub(crate) fn found_faults(&mut self) -> Vec<Fault> {
        let (mut faults, mut room) = (Vec::new(), Vec::new());
        let (mut found, mut needed) = (8, SHORT);
        while found > faults.len() || needed > room.len() {
            faults.resize_with(found, RawFault::default);
            room.resize(needed, 0);
            // SAFETY: see the head of the module.
            let status = unsafe {
                hayro_cmap_found_faults(
                    &mut self.loader,
                    faults.as_mut_ptr(),
                    faults.len(),
                    &mut found,
                    room.as_mut_ptr(),
                    room.len(),
                    &mut needed,
                )
            };
            expect_memory(status);
        }
        Fault::each(&faults[..found], &room)
    }

    /// The map of the file, if no file is wanted.
    pub(crate) fn finish(&mut self) -> Result<MapHandle, Fault> {
        let mut map = MapHandle::empty();
        let mut fault = RawFault::default();
        let mut room = vec![0; SHORT];
        loop {
            let mut needed = 0;
            // SAFETY: see the head of the module.
            let status = unsafe {
                hayro_cmap_finish(
                    &mut map.0,
                    &mut self.loader,
                    &mut fault,
                    room.as_mut_ptr(),
                    room.len(),
                    &mut needed,
                )
            };
            match status {
                REFUSED | OVER_BUDGET if needed > room.len() => room.resize(needed, 0),
                REFUSED | OVER_BUDGET => return Err(Fault::of(&fault, &room)),
                NO_MEMORY => out_of_memory(),
                _ => return Ok(map),
            }
        }
    }
}

/// An encoder of the library.
pub(crate) struct EncoderHandle(RawEncoder);

// SAFETY: as for `MapHandle`.
unsafe impl Send for EncoderHandle {}

impl Drop for EncoderHandle {
    fn drop(&mut self) {
        // SAFETY: see the head of the module. This is the one call that frees the handle.
        unsafe { hayro_cmap_encoder_free(&mut self.0) }
    }
}

impl EncoderHandle {
    fn empty() -> EncoderHandle {
        EncoderHandle(RawEncoder { full: false, encoder: ptr::null_mut() })
    }

    /// The encoder of a font; all maps but the encoding may be empty.
    pub(crate) fn build(
        encoding: &mut MapHandle,
        to_unicode: &mut MapHandle,
        collection: &mut MapHandle,
        unicode: &mut MapHandle,
        exact: bool,
    ) -> EncoderHandle {
        let mut encoder = EncoderHandle::empty();
        // SAFETY: see the head of the module.
        expect_memory(unsafe {
            hayro_cmap_encoder_build_with(
                &mut encoder.0,
                &mut encoding.0,
                &mut to_unicode.0,
                &mut collection.0,
                &mut unicode.0,
                exact,
            )
        });
        encoder
    }

    /// The string that shows a text, or the offset where the text is refused.
    pub(crate) fn encode(&mut self, text: &str) -> Result<Vec<u8>, usize> {
        let mut offset = 0;
        let string = written(BYTES_EACH * text.len(), |room, needed| {
            // SAFETY: see the head of the module.
            unsafe {
                hayro_cmap_encode(
                    &mut self.0,
                    text.as_ptr(),
                    text.len(),
                    room.as_mut_ptr(),
                    room.len(),
                    needed,
                    &mut offset,
                )
            }
        });
        string.ok_or(offset)
    }

    /// The pieces of a text, or the offset where the text is refused.
    pub(crate) fn pieces(&mut self, text: &str) -> Result<Vec<RawPiece>, usize> {
        let mut offset = 0;
        let pieces = written(text.len(), |room, needed| {
            // SAFETY: see the head of the module.
            unsafe {
                hayro_cmap_encode_pieces(
                    &mut self.0,
                    text.as_ptr(),
                    text.len(),
                    room.as_mut_ptr(),
                    room.len(),
                    needed,
                    &mut offset,
                )
            }
        });
        pieces.ok_or(offset)
    }

    /// The string of a text with the bytes `missing` for each character that can't be encoded; `None` if these
    /// bytes aren't whole codes.
    pub(crate) fn encode_lossy(&mut self, text: &str, missing: &[u8]) -> Option<Vec<u8>> {
        written(BYTES_EACH * text.len(), |room, needed| {
            // SAFETY: see the head of the module.
            unsafe {
                hayro_cmap_encode_lossy(
                    &mut self.0,
                    text.as_ptr(),
                    text.len(),
                    missing.as_ptr(),
                    missing.len(),
                    room.as_mut_ptr(),
                    room.len(),
                    needed,
                )
            }
        })
    }
}

/// Names that follow one another in a buffer.
fn split(mut room: &[u8], lens: impl Iterator<Item = usize>) -> Vec<Vec<u8>> {
    lens.map(|len| {
        let (name, rest) = room.split_at(len);
        room = rest;
        name.to_vec()
    })
    .collect()
}

/// A handle that can be shared.
pub(crate) trait Share: Sized {
    /// Another handle of the same map, bundle or encoder. Nothing is copied.
    fn share(&mut self) -> Self;
}

impl Share for MapHandle {
    fn share(&mut self) -> MapHandle {
        let mut other = MapHandle::empty();
        // SAFETY: see the head of the module.
        expect_memory(unsafe { hayro_cmap_share(&mut self.0, &mut other.0) });
        other
    }
}

impl Share for BundleHandle {
    fn share(&mut self) -> BundleHandle {
        let mut other = BundleHandle::empty();
        // SAFETY: see the head of the module.
        expect_memory(unsafe { hayro_cmap_bundle_share(&mut self.0, &mut other.0) });
        other
    }
}

impl Share for EncoderHandle {
    fn share(&mut self) -> EncoderHandle {
        let mut other = EncoderHandle::empty();
        // SAFETY: see the head of the module.
        expect_memory(unsafe { hayro_cmap_encoder_share(&mut self.0, &mut other.0) });
        other
    }
}

/// The text of a CMap file with these declarations and metadata.
pub(crate) fn make(file: &CMapBuilder) -> Option<Vec<u8>> {
    let facts = RawFacts::of(file);
    let declarations: Vec<_> = file.declarations.iter().map(RawDeclaration::of).collect();
    written(LONG, |room, needed| {
        // SAFETY: see the head of the module.
        unsafe {
            hayro_cmap_make(
                &facts,
                declarations.as_ptr(),
                declarations.len(),
                room.as_mut_ptr(),
                room.len(),
                needed,
            )
        }
    })
}

/// The name of a warning, by its number.
pub(crate) fn warning_name(warning: u32) -> Option<Vec<u8>> {
    written(SHORT, |room, needed| {
        // SAFETY: see the head of the module.
        unsafe { hayro_cmap_warning_name(warning, room.as_mut_ptr(), room.len(), needed) }
    })
}

/// A text in the characters that are usually written.
pub(crate) fn fold(text: &str) -> String {
    let mut offset = 0;
    let folded = written(BYTES_EACH * text.len(), |room, needed| {
        // SAFETY: see the head of the module.
        unsafe {
            hayro_cmap_fold(
                text.as_ptr(),
                text.len(),
                room.as_mut_ptr(),
                room.len(),
                needed,
                &mut offset,
            )
        }
    });
    let folded = folded.and_then(|bytes| String::from_utf8(bytes).ok());
    folded.expect("a text is UTF-8")
}

/// The name of the CMap from Unicode to the CIDs of a character collection.
pub(crate) fn unicode_name(collection: &[u8], mode: WritingMode) -> Option<Vec<u8>> {
    written(SHORT, |room, needed| {
        // SAFETY: see the head of the module.
        unsafe {
            hayro_cmap_unicode_name(
                collection.as_ptr(),
                collection.len(),
                mode_of(mode).into(),
                room.as_mut_ptr(),
                room.len(),
                needed,
            )
        }
    })
}

/// The version of the library.
pub(crate) fn version() -> Option<Vec<u8>> {
    written(SHORT, |room, needed| {
        // SAFETY: see the head of the module.
        unsafe { hayro_cmap_version(room.as_mut_ptr(), room.len(), needed) }
    })
}

#[cfg(test)]
mod tests {
    use super::*;

    unsafe extern "C" {
        fn hayro_cmap_salvage(
            map: *mut RawMap,
            data: *const u8,
            data_len: usize,
            bundle: *mut RawBundle,
            files: *const File<'_>,
            files_len: usize,
            budget: u64,
            faults: *mut RawFault,
            faults_len: usize,
            found: *mut usize,
            room: *mut u8,
            room_len: usize,
            needed: *mut usize,
        ) -> u32;
    }

    const FILES: [(&str, &str); 4] = [
        ("Over", "/Faulty usecmap ) /Nowhere usecmap"),
        ("Faulty", "begincidchar <41> x endcidchar"),
        ("Loop", ") /Loop usecmap"),
        ("Sound", "begincidchar <41> 7 endcidchar"),
    ];

    fn faults_of_list(data: &[u8], budget: u64) -> Vec<Fault> {
        let files = FILES.map(|(name, bytes)| File {
            name: name.as_ptr(),
            name_len: name.len(),
            bytes: bytes.as_ptr(),
            bytes_len: bytes.len(),
            lent: PhantomData,
        });
        let (mut map, mut bundle) = (MapHandle::empty(), BundleHandle::empty());
        let mut faults: Vec<RawFault> = (0..32).map(|_| RawFault::default()).collect();
        let (mut room, mut found, mut needed) = ([0; 1024], 0, 0);
        // SAFETY: see the head of the module.
        let status = unsafe {
            hayro_cmap_salvage(
                &mut map.0,
                data.as_ptr(),
                data.len(),
                &mut bundle.0,
                files.as_ptr(),
                files.len(),
                budget,
                faults.as_mut_ptr(),
                faults.len(),
                &mut found,
                room.as_mut_ptr(),
                room.len(),
                &mut needed,
            )
        };
        assert!(status == OK && needed <= room.len());
        Fault::each(&faults[..found], &room)
    }

    fn faults_of_loader(data: &[u8], budget: u64) -> Vec<Fault> {
        let mut loader = LoaderHandle::load_past_faults(data, &mut BundleHandle::empty(), budget);
        while let Some(wanted) = loader.wanted() {
            match FILES.iter().find(|(name, _)| name.as_bytes() == wanted) {
                Some((_, file)) => loader.supply(Found::Given, file.as_bytes()),
                None => loader.supply(Found::Elsewhere, &[]),
            }
        }
        loader.found_faults()
    }

    #[test]
    fn a_loader_past_faults_finds_the_faults_of_a_list() {
        let over = b") /Over usecmap /Nowhere usecmap /Faulty usecmap /Sound usecmap";
        for (data, budget, count) in [
            (&over[..], u64::MAX, 4),
            (over, 130, 6),
            (over, 10, 1),
            (b"/Loop usecmap /Over usecmap", u64::MAX, 2),
            (b"/Sound usecmap", u64::MAX, 0),
        ] {
            let faults = faults_of_loader(data, budget);
            assert_eq!(faults, faults_of_list(data, budget));
            assert_eq!(faults.len(), count, "{faults:?}");
        }
    }
}
