//! What differs from what was read, as edits. What differs and no edit says is refused.

use super::list::EditList;
use super::read::{DATA, ELEMENT, FUNCTION, GLOBAL, MEMORY, MODULE, TABLE, TAG, TYPE};
use super::types::TypeKind;
use super::{
    Arena, Body, Data, Element, Error, Function, FunctionId, FunctionKind, Global, GlobalId,
    GlobalKind, Id, Import, ImportId, ImportKind, Item, Module,
};
use std::collections::{BTreeMap, HashSet};

/// Why an item of a kind that no edit adds or takes away is refused.
const GONE: &str = "an item of its kind can't go";
const NEW: &str = "an item of its kind can't be added";
const FIXED: &str = "nothing but its name can be changed";

type Done = Result<(), Error>;

fn refused<T>(item: Item, why: &'static str) -> Result<T, Error> {
    Err(Error::Item(item, why))
}

/// What was there of an id, and what is.
struct Pair<'a, T> {
    id: Id<T>,
    was: Option<&'a T>,
    is: Option<&'a T>,
    /// Whether it comes behind all that was there.
    is_new: bool,
}

/// Each id of the two, by rising id.
fn pairs<'a, T>(was: &'a Arena<T>, is: &'a Arena<T>) -> impl Iterator<Item = Pair<'a, T>> {
    let count = was.0.len().max(is.0.len()) as u32;
    (0..count).map(Id::at).map(move |id| Pair {
        id,
        was: was.try_get(id),
        is: is.try_get(id),
        is_new: id.place() >= was.0.len(),
    })
}

/// Edits are so ordered that each names what is there: types first, then functions that trap as
/// yet, globals, memories and segments, then bodies, and then all else.
struct Differ<'a> {
    was: &'a Module,
    is: &'a Module,
    list: EditList,
    /// The imports whose items come with an edit of their own, or have a body or a value now.
    done: HashSet<ImportId>,
}

impl<'a> Differ<'a> {
    fn types(&mut self) -> Done {
        for pair in pairs(&self.was.types, &self.is.types) {
            let item = Item::Type(pair.id.index());
            match (pair.was, pair.is) {
                (Some(was), Some(is)) if was.kind == is.kind => {}
                (Some(_), Some(_)) => return refused(item, FIXED),
                (_, None) => return refused(item, GONE),
                (None, Some(is)) => match &is.kind {
                    TypeKind::Function(params, results) => {
                        self.list.add_type(pair.id.index(), params, results);
                    }
                    TypeKind::Other(_) => return refused(item, "only types of functions come"),
                },
            }
        }
        Ok(())
    }

    /// The import of this id, which is new and brings this item.
    fn new_import(&mut self, id: ImportId, of: Item, its: ImportKind) -> Result<&'a Import, Error> {
        let is_new = id.place() >= self.was.imports.0.len();
        match self.is.imports.try_get(id) {
            Some(import) if is_new && import.kind == its && self.done.insert(id) => Ok(import),
            _ => refused(of, "its import can't be changed"),
        }
    }

    /// Where a function that was read comes from: the import by which it comes to be imported.
    fn brought(
        &mut self,
        id: FunctionId,
        was: &Function,
        is: &Function,
    ) -> Result<Option<ImportId>, Error> {
        let item = Item::Function(id.index());
        if was.ty != is.ty {
            return refused(item, "its type can't be changed");
        }
        match (&was.kind, &is.kind) {
            (FunctionKind::Import(old), FunctionKind::Import(new)) if old == new => Ok(None),
            (FunctionKind::Import(_), FunctionKind::Import(_)) => {
                refused(item, "its import can't be changed")
            }
            (FunctionKind::Import(import), FunctionKind::Local(_)) => {
                self.done.insert(*import);
                Ok(None)
            }
            (FunctionKind::Local(_), FunctionKind::Import(import)) => Ok(Some(*import)),
            (FunctionKind::Local(old), FunctionKind::Local(new)) => {
                let stays = new.is_still(old) || new.in_front_of(old).is_some();
                if stays && was.locals != is.locals {
                    return refused(item, "the names of its locals can't be changed");
                }
                Ok(None)
            }
        }
    }

    /// Has functions imported by those of these imports that come before this one, if there is one.
    fn bring(
        &mut self,
        brought: &mut BTreeMap<ImportId, FunctionId>,
        end: Option<ImportId>,
    ) -> Done {
        let behind = end.map_or_else(BTreeMap::new, |end| brought.split_off(&end));
        for (import, id) in std::mem::replace(brought, behind) {
            let import = self.new_import(import, Item::Function(id.index()), id.into())?;
            self.list.bring_function(id, import);
        }
        Ok(())
    }

    fn add_function(
        &mut self,
        id: FunctionId,
        is: &Function,
        brought: &mut BTreeMap<ImportId, FunctionId>,
    ) -> Done {
        if let FunctionKind::Import(import) = is.kind {
            self.bring(brought, Some(import))?;
            let import = self.new_import(import, Item::Function(id.index()), id.into())?;
            self.list.import_function(id, is.ty, import);
        } else {
            self.list.add_function(id, is.ty);
        }
        Ok(())
    }

    /// New imports come in their order.
    fn functions(&mut self) -> Done {
        let mut brought = BTreeMap::new();
        for pair in pairs(&self.was.funcs, &self.is.funcs) {
            let item = Item::Function(pair.id.index());
            match (pair.was, pair.is) {
                (Some(was), Some(is)) => {
                    if let Some(import) = self.brought(pair.id, was, is)? {
                        if brought.insert(import, pair.id).is_some() {
                            return refused(item, "its import brings another function");
                        }
                    }
                }
                (None, Some(is)) => self.add_function(pair.id, is, &mut brought)?,
                (_, None) => return refused(item, GONE),
            }
        }
        self.bring(&mut brought, None)
    }

    fn body(&mut self, id: FunctionId, was: Option<&Function>, is: &Body) {
        match was.and_then(Function::body) {
            Some(was) if is.is_still(was) => {}
            Some(was) => match is.in_front_of(was) {
                Some(operators) => self.list.put_in_front(id, operators),
                None => self.list.set_body(id, &is.bytes()),
            },
            None => self.list.set_body(id, &is.bytes()),
        }
    }

    fn bodies(&mut self) -> Done {
        for pair in pairs(&self.was.funcs, &self.is.funcs) {
            if let Some(body) = pair.is.and_then(Function::body) {
                self.body(pair.id, pair.was, body);
            }
        }
        Ok(())
    }

    fn tables(&mut self) -> Done {
        for pair in pairs(&self.was.tables, &self.is.tables) {
            let item = Item::Table(pair.id.index());
            match (pair.was, pair.is) {
                (Some(was), Some(is)) if was.is_but_for_its_name(is) => {}
                (Some(_), Some(_)) => return refused(item, FIXED),
                (None, Some(_)) => return refused(item, NEW),
                (_, None) => return refused(item, GONE),
            }
        }
        Ok(())
    }

    fn tags(&mut self) -> Done {
        for pair in pairs(&self.was.tags, &self.is.tags) {
            let item = Item::Tag(pair.id.index());
            match (pair.was, pair.is) {
                (Some(was), Some(is)) if (was.ty, was.import) == (is.ty, is.import) => {}
                (Some(_), Some(_)) => return refused(item, FIXED),
                (None, Some(_)) => return refused(item, NEW),
                (_, None) => return refused(item, GONE),
            }
        }
        Ok(())
    }

    fn memories(&mut self) -> Done {
        for pair in pairs(&self.was.memories, &self.is.memories) {
            let (id, item) = (pair.id.index(), Item::Memory(pair.id.index()));
            match (pair.was, pair.is) {
                (Some(was), Some(is)) if was.import != is.import => {
                    return refused(item, "its import can't be changed")
                }
                (Some(was), Some(is)) if was.has_limits_of(is) => {}
                (Some(_), Some(is)) => self.list.set_memory(id, is),
                (None, Some(_)) => return refused(item, NEW),
                (_, None) => return refused(item, GONE),
            }
        }
        Ok(())
    }

    /// Whether what was read of a global comes anew.
    fn is_set(&mut self, id: GlobalId, was: &Global, is: &Global) -> Result<bool, Error> {
        let item = Item::Global(id.index());
        let differs = was.differs_in(is);
        match (&was.kind, &is.kind) {
            (GlobalKind::Local(old), GlobalKind::Local(new)) => Ok(differs.is_some() || old != new),
            (GlobalKind::Import(old), GlobalKind::Import(new)) if old != new => {
                refused(item, "its import can't be changed")
            }
            (GlobalKind::Import(_), GlobalKind::Import(_)) => {
                differs.map_or(Ok(false), |why| refused(item, why))
            }
            (GlobalKind::Import(import), GlobalKind::Local(_)) => {
                self.done.insert(*import);
                Ok(true)
            }
            (GlobalKind::Local(_), GlobalKind::Import(_)) => {
                refused(item, "it can't come to be imported")
            }
        }
    }

    fn add_global(&mut self, id: GlobalId, is: &Global) -> Done {
        if let GlobalKind::Import(import) = is.kind {
            let import = self.new_import(import, Item::Global(id.index()), id.into())?;
            self.list.import_global(id.index(), is, import);
        } else {
            self.list.add_global(id.index(), is);
        }
        Ok(())
    }

    fn globals(&mut self) -> Done {
        let mut set = Vec::new();
        for pair in pairs(&self.was.globals, &self.is.globals) {
            match (pair.was, pair.is) {
                (Some(was), Some(is)) => {
                    if self.is_set(pair.id, was, is)? {
                        set.push((pair.id.index(), is));
                    }
                }
                (None, Some(is)) => self.add_global(pair.id, is)?,
                (_, None) => return refused(Item::Global(pair.id.index()), GONE),
            }
        }
        set.into_iter()
            .for_each(|(id, is)| self.list.set_global(id, is));
        Ok(())
    }

    fn elements(&mut self) -> Done {
        for pair in pairs(&self.was.elements, &self.is.elements) {
            let id = pair.id.index();
            match (pair.was, pair.is) {
                (Some(was), Some(is)) if (&was.kind, &was.items) == (&is.kind, &is.items) => {}
                (Some(_), Some(_)) => return refused(Item::Element(id), FIXED),
                (None, Some(is)) => self.list.add_element(id, is),
                (_, None) => {
                    if pair.is_new {
                        self.list.add_element(id, &Element::empty());
                    }
                    self.list.delete_element(id);
                }
            }
        }
        Ok(())
    }

    /// One that came and went has an id all the same, and so do those behind it.
    fn data(&mut self) -> Done {
        for pair in pairs(&self.was.data, &self.is.data) {
            let id = pair.id.index();
            match (pair.was, pair.is) {
                (Some(was), Some(is)) if (&was.kind, &was.value) == (&is.kind, &is.value) => {}
                (Some(_), Some(is)) => self.list.set_data(id, is),
                (None, Some(is)) => self.list.add_data(id, is),
                (_, None) => {
                    if pair.is_new {
                        self.list.add_data(id, &Data::empty());
                    }
                    self.list.delete_data(id);
                }
            }
        }
        Ok(())
    }

    /// An import whose item has a body or a value now is gone, and so needs no edit.
    fn imports(&mut self) -> Done {
        for pair in pairs(&self.was.imports, &self.is.imports) {
            let item = Item::Import(pair.id.index());
            let is_done = self.done.contains(&pair.id);
            match (pair.was, pair.is) {
                (Some(was), Some(is)) if was == is => {}
                (Some(was), Some(is)) if was.kind != is.kind => {
                    return refused(item, "what it brings can't be changed")
                }
                (Some(_), Some(_)) if is_done => {
                    return refused(
                        item,
                        "it is gone, since what it brought is the module's own",
                    )
                }
                (Some(_), Some(is)) => self.list.set_import(pair.id.index(), is),
                (Some(_), None) if !is_done => return refused(item, GONE),
                _ => {}
            }
        }
        Ok(())
    }

    fn exports(&mut self) {
        for pair in pairs(&self.was.exports, &self.is.exports) {
            let id = pair.id.index();
            match (pair.was, pair.is) {
                (Some(was), Some(is)) if was == is => {}
                (Some(_), Some(is)) => self.list.set_export(id, is),
                (Some(_), None) => self.list.delete_export(id),
                (None, Some(is)) => self.list.add_export(id, is),
                (None, None) => {}
            }
        }
    }

    fn start(&mut self) {
        match (self.was.start, self.is.start) {
            (was, Some(id)) if was != Some(id) => self.list.set_start(id),
            (Some(_), None) => self.list.delete_start(),
            _ => {}
        }
    }

    fn customs(&mut self) -> Done {
        for pair in pairs(&self.was.customs, &self.is.customs) {
            let id = pair.id.index();
            match (pair.was, pair.is) {
                (Some(was), Some(is)) if was == is => {}
                (Some(was), Some(is)) if was.name == is.name => self.list.set_custom(id, is),
                (Some(_), Some(_)) => {
                    return refused(Item::Custom(id), "its name can't be changed")
                }
                (Some(_), None) => self.list.delete_custom(id),
                (None, Some(is)) => self.list.add_custom(id, is),
                (None, None) => {}
            }
        }
        Ok(())
    }

    /// Those from here on come, and those before that differ, each in the place of one of its name
    /// in the field, where there is one.
    fn add_producers(&mut self, from: usize) -> Done {
        let mut names = HashSet::new();
        for (at, it) in self.is.producers.0.iter().enumerate() {
            let is_first = names.insert((&it.field, &it.name));
            let comes = at >= from || self.was.producers.0.get(at) != Some(it);
            if comes && !is_first {
                let item = Item::Producer(at as u32);
                return refused(item, "one of its name stands before it in its field");
            }
            if comes {
                self.list.add_producer(at, it);
            }
        }
        Ok(())
    }

    fn producers(&mut self) -> Done {
        let (was, is) = (&self.was.producers.0, &self.is.producers.0);
        if was == is {
            return Ok(());
        }
        let mut both = was.iter().zip(is);
        let stay = both.all(|(was, is)| (&was.field, &was.name) == (&is.field, &is.name));
        if stay && was.len() <= is.len() {
            return self.add_producers(was.len());
        }
        self.list.clear_producers();
        self.add_producers(0)
    }

    fn name<T>(
        &mut self,
        what: u8,
        pair: &Pair<'_, T>,
        item: Item,
        of: impl Fn(&T) -> Option<&str>,
    ) {
        let name = pair.is.and_then(&of);
        if pair.is.is_some() && name != pair.was.and_then(&of) {
            self.list.name(what, pair.id.index(), name, item);
        }
    }

    fn names(&mut self) {
        let (was, is) = (self.was, self.is);
        if was.name != is.name {
            self.list.name(MODULE, 0, is.name.as_deref(), Item::Module);
        }
        macro_rules! names_of {
            ($($what:ident $arena:ident $item:ident,)*) => {$(
                for pair in pairs(&was.$arena, &is.$arena) {
                    let item = Item::$item(pair.id.index());
                    self.name($what, &pair, item, |it| it.name.as_deref());
                }
            )*};
        }
        names_of! {
            TYPE types Type, FUNCTION funcs Function, TABLE tables Table, MEMORY memories Memory,
            GLOBAL globals Global, TAG tags Tag, ELEMENT elements Element, DATA data Data,
        }
    }
}

/// The edits that make this of what was read.
pub(super) fn between(was: &Module, is: &Module) -> Result<EditList, Error> {
    let (list, done) = (EditList::default(), HashSet::new());
    let mut differ = Differ {
        was,
        is,
        list,
        done,
    };
    differ.types()?;
    differ.functions()?;
    differ.globals()?;
    differ.tables()?;
    differ.memories()?;
    differ.tags()?;
    differ.elements()?;
    differ.data()?;
    differ.bodies()?;
    differ.imports()?;
    differ.exports();
    differ.start();
    differ.customs()?;
    differ.producers()?;
    differ.names();
    Ok(differ.list)
}
