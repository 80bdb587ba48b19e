//! What a generated construct may name, and what a generated program has declared so far.

use crate::tree::*;

pub struct Signature {
    pub kind: CallableKind,
    pub parameters: Vec<Parameter>,
    /// At least its body's ceiling.
    pub ceiling: u64,
}

impl Signature {
    pub fn returns(&self) -> Option<Type> {
        match self.kind {
            CallableKind::Action => None,
            CallableKind::Function(kind) => Some(kind),
        }
    }

    pub fn is_for_tables(&self) -> bool {
        let undirected = |parameter: &Parameter| parameter.direction == Direction::None;
        self.kind == CallableKind::Action && self.parameters.iter().all(undirected)
    }
}

/// A place that an expression can name.
#[derive(Clone, Copy, PartialEq, Eq)]
pub enum Place {
    Local(usize),
    Parameter(usize),
    Global(usize),
    Field { global: usize, field: usize },
}

#[derive(Default)]
pub struct Declared {
    pub headers: Vec<Vec<u32>>,
    pub globals: Vec<GlobalKind>,
    pub callables: Vec<Signature>,
    pub tables: Vec<DeclaredTable>,
}

pub struct DeclaredTable {
    pub keys: Vec<DeclaredKey>,
    pub actions: Vec<usize>,
}

/// A key, and the global or field it reads where it is one alone.
#[derive(Clone, Copy)]
pub struct DeclaredKey {
    pub kind: KeyKind,
    pub width: u32,
    pub reads: Option<Place>,
}

/// Where a construct stands.
pub struct Scope {
    /// How many callables it may reach.
    pub reach: usize,
    /// The kind of the callable around; none for keys, states and the apply body.
    pub holder: Option<CallableKind>,
    pub in_state: bool,
    pub parameters: Vec<Parameter>,
    pub locals: Vec<Type>,
}

impl Scope {
    pub fn outside(reach: usize) -> Scope {
        Scope { reach, holder: None, in_state: false, parameters: Vec::new(), locals: Vec::new() }
    }

    pub fn in_state(reach: usize) -> Scope {
        Scope { in_state: true, ..Scope::outside(reach) }
    }

    pub fn in_function(&self) -> bool {
        matches!(self.holder, Some(CallableKind::Function(_)))
    }

    /// Each place that can be named here, with its type.
    fn all_places(&self, declared: &Declared, writable: bool) -> Vec<(Place, Type)> {
        let mut places = Vec::new();
        for (index, kind) in self.locals.iter().enumerate() {
            places.push((Place::Local(index), *kind));
        }
        for (index, parameter) in self.parameters.iter().enumerate() {
            if !writable || parameter.direction.writes() {
                places.push((Place::Parameter(index), parameter.kind));
            }
        }
        if !self.in_function() {
            for (index, global) in declared.globals.iter().enumerate() {
                places.extend(places_of_global(declared, index, *global));
            }
        }
        places
    }

    /// The places of a type.
    pub fn places(&self, declared: &Declared, kind: Type) -> Vec<Place> {
        of_type(self.all_places(declared, false), kind)
    }

    /// The writable places of a type.
    pub fn writable_places(&self, declared: &Declared, kind: Type) -> Vec<Place> {
        of_type(self.all_places(declared, true), kind)
    }

    /// All writable places with their types; after a slip all places.
    pub fn targets(&self, declared: &Declared, slip: bool) -> Vec<(Place, Type)> {
        self.all_places(declared, !slip)
    }

    /// All places of bits with their widths.
    pub fn bits_places(&self, declared: &Declared) -> Vec<(Place, u32)> {
        let width = |(place, kind)| match kind {
            Type::Bool => None,
            Type::Bits(width) => Some((place, width)),
        };
        self.all_places(declared, false).into_iter().filter_map(width).collect()
    }

    /// The headers that can be extracted.
    pub fn extractable(&self, declared: &Declared) -> Vec<usize> {
        let mut headers = self.headers(declared);
        headers.retain(|&global| bytes_of(declared, global).is_some());
        headers
    }

    /// The headers that can be named here.
    pub fn headers(&self, declared: &Declared) -> Vec<usize> {
        let is_header = |index: &usize| matches!(declared.globals[*index], GlobalKind::Header(_));
        let all = if self.in_function() { 0 } else { declared.globals.len() };
        (0..all).filter(is_header).collect()
    }
}

/// How many bytes a global's fields take, if it is a header of whole bytes.
pub fn bytes_of(declared: &Declared, global: usize) -> Option<usize> {
    match declared.globals[global] {
        GlobalKind::Plain(_) => None,
        GlobalKind::Header(header) => whole_bytes(&declared.headers[header]),
    }
}

fn places_of_global(declared: &Declared, index: usize, global: GlobalKind) -> Vec<(Place, Type)> {
    match global {
        GlobalKind::Plain(kind) => vec![(Place::Global(index), kind)],
        GlobalKind::Header(header) => {
            let field = |(field, width): (usize, &u32)| (Place::Field { global: index, field }, Type::Bits(*width));
            declared.headers[header].iter().enumerate().map(field).collect()
        }
    }
}

fn of_type(places: Vec<(Place, Type)>, kind: Type) -> Vec<Place> {
    places.into_iter().filter(|place| place.1 == kind).map(|place| place.0).collect()
}
