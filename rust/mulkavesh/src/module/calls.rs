//! What a program does with items, by the names that it has in the crate `walrus`.

use super::types::TypeKind;
use super::CustomId;
use super::{
    Arena, Body, ConstExpr, Data, DataId, DataKind, Element, ElementId, ElementItems, ElementKind,
    Error, Export, ExportId, ExportItem, Function, FunctionId, FunctionKind, Global, GlobalId,
    GlobalKind, Import, ImportId, ImportKind, Item, Module, RawCustomSection, Type, TypeId,
    ValType,
};

impl Module {
    /// Imports a function of this type.
    pub fn add_import_func(
        &mut self,
        module: &str,
        name: &str,
        ty: TypeId,
    ) -> (FunctionId, ImportId) {
        let id = self.funcs.next_id();
        let import = self.imports.add(module, name, id.into());
        let kind = FunctionKind::Import(import);
        (self.funcs.put(Function::new(ty, kind)), import)
    }

    /// Imports a global of this type.
    pub fn add_import_global(
        &mut self,
        module: &str,
        name: &str,
        ty: ValType,
        mutable: bool,
        shared: bool,
    ) -> (GlobalId, ImportId) {
        let id = self.globals.next_id();
        let import = self.imports.add(module, name, id.into());
        let global = Global {
            ty,
            mutable,
            shared,
            kind: GlobalKind::Import(import),
            name: None,
        };
        (self.globals.put(global), import)
    }

    /// An imported function has this body from now on, and its import is gone. Its id, its type and
    /// its name stay.
    ///
    /// # Errors
    ///
    /// [`Error::Item`] where it isn't imported, or isn't there.
    pub fn replace_imported_func(
        &mut self,
        id: FunctionId,
        body: Body,
    ) -> Result<FunctionId, Error> {
        match self.funcs.try_get(id).map(|it| &it.kind) {
            Some(FunctionKind::Import(import)) => {
                self.imports.take(*import);
                self.funcs.get_mut(id).kind = FunctionKind::Local(body);
                Ok(id)
            }
            _ => Err(Error::Item(Item::Function(id.index()), "it isn't imported")),
        }
    }

    /// The first export of a function exports a new one with this body from now on, of the same type.
    ///
    /// # Errors
    ///
    /// [`Error::Item`] where it isn't exported.
    pub fn replace_exported_func(
        &mut self,
        id: FunctionId,
        body: Body,
    ) -> Result<FunctionId, Error> {
        let found = self.exports.ids_where(|it| it.item == id.into());
        match (found.first(), self.funcs.try_get(id)) {
            (Some(export), Some(it)) => {
                let new = self.funcs.add_local(it.ty, body);
                self.exports.get_mut(*export).item = new.into();
                Ok(new)
            }
            _ => Err(Error::Item(Item::Function(id.index()), "it isn't exported")),
        }
    }

    /// A function with a body comes to be imported, and its body is gone. Its id, its type and its
    /// name stay.
    ///
    /// # Errors
    ///
    /// [`Error::Item`] where it has no body, or isn't there.
    pub fn import_func(
        &mut self,
        id: FunctionId,
        module: &str,
        name: &str,
    ) -> Result<ImportId, Error> {
        if self.funcs.try_get(id).and_then(Function::body).is_none() {
            return Err(Error::Item(Item::Function(id.index()), "it has no body"));
        }
        let import = self.imports.add(module, name, id.into());
        self.funcs.get_mut(id).kind = FunctionKind::Import(import);
        Ok(import)
    }

    /// What a function is called: its name, that of its import, or one by its id.
    pub fn called(&self, id: FunctionId) -> String {
        let it = self.funcs.get(id);
        match (&it.name, &it.kind) {
            (Some(name), _) => name.clone(),
            (None, FunctionKind::Import(import)) => self.imports.get(*import).name.clone(),
            (None, FunctionKind::Local(_)) => format!("function[{}]", id.index()),
        }
    }
}

impl Arena<Type> {
    /// The type of functions that take and give these: the first such one, or a new one.
    pub fn add(&mut self, params: &[ValType], results: &[ValType]) -> TypeId {
        let kind = TypeKind::Function(params.to_vec(), results.to_vec());
        let found = self.ids_where(|it| it.kind == kind);
        match found.first() {
            Some(id) => *id,
            None => self.put(Type { kind, name: None }),
        }
    }
}

impl Arena<Function> {
    /// A function of this type with this body comes.
    pub fn add_local(&mut self, ty: TypeId, body: Body) -> FunctionId {
        self.put(Function::new(ty, FunctionKind::Local(body)))
    }

    /// The first function of this name.
    pub fn by_name(&self, name: &str) -> Option<FunctionId> {
        let found = self.ids_where(|it| it.name.as_deref() == Some(name));
        found.first().copied()
    }

    /// The functions with a body, and the body.
    pub fn iter_local(&self) -> impl Iterator<Item = (FunctionId, &Body)> {
        self.iter().filter_map(|(id, it)| Some((id, it.body()?)))
    }

    /// The functions with a body, and the body, to be written.
    pub fn iter_local_mut(&mut self) -> impl Iterator<Item = (FunctionId, &mut Body)> {
        self.iter_mut().filter_map(|(id, it)| match &mut it.kind {
            FunctionKind::Local(body) => Some((id, body)),
            FunctionKind::Import(_) => None,
        })
    }
}

impl Arena<Import> {
    fn add(&mut self, module: &str, name: &str, kind: ImportKind) -> ImportId {
        self.put(Import {
            module: module.to_owned(),
            name: name.to_owned(),
            kind,
        })
    }

    /// The first import of these names.
    pub fn find(&self, module: &str, name: &str) -> Option<ImportId> {
        let found = self.ids_where(|it| it.module == module && it.name == name);
        found.first().copied()
    }
}

impl Arena<Export> {
    /// Exports an item.
    pub fn add(&mut self, name: &str, item: impl Into<ExportItem>) -> ExportId {
        self.put(Export {
            name: name.to_owned(),
            item: item.into(),
        })
    }

    /// Takes an export away, where it is there.
    pub fn delete(&mut self, id: ExportId) -> Option<Export> {
        self.take(id)
    }

    /// Takes the export of this name away, where it is there.
    pub fn remove(&mut self, name: &str) -> Option<Export> {
        self.take(self.by_name(name)?)
    }

    /// The export of this name.
    pub fn by_name(&self, name: &str) -> Option<ExportId> {
        self.ids_where(|it| it.name == name).first().copied()
    }

    /// The function that is exported under this name.
    pub fn get_func(&self, name: &str) -> Option<FunctionId> {
        match self.get(self.by_name(name)?).item {
            ExportItem::Function(id) => Some(id),
            _ => None,
        }
    }
}

impl Arena<Global> {
    /// A global that begins with this value comes.
    pub fn add_local(
        &mut self,
        ty: ValType,
        mutable: bool,
        shared: bool,
        init: ConstExpr,
    ) -> GlobalId {
        self.put(Global {
            ty,
            mutable,
            shared,
            kind: GlobalKind::Local(init),
            name: None,
        })
    }
}

impl Arena<Element> {
    /// A segment comes.
    pub fn add(&mut self, kind: ElementKind, items: ElementItems) -> ElementId {
        self.put(Element {
            kind,
            items,
            name: None,
        })
    }

    /// Takes a segment away, where it is there.
    pub fn delete(&mut self, id: ElementId) -> Option<Element> {
        self.take(id)
    }
}

impl Arena<Data> {
    /// A segment comes.
    pub fn add(&mut self, kind: DataKind, value: Vec<u8>) -> DataId {
        self.put(Data {
            kind,
            value,
            name: None,
        })
    }

    /// Takes a segment away, where it is there.
    pub fn delete(&mut self, id: DataId) -> Option<Data> {
        self.take(id)
    }
}

impl Arena<RawCustomSection> {
    /// A section comes.
    pub fn add(&mut self, name: &str, data: Vec<u8>) -> CustomId {
        let name = name.to_owned();
        self.put(RawCustomSection { name, data })
    }

    /// Takes a section away, where it is there.
    pub fn delete(&mut self, id: CustomId) -> Option<RawCustomSection> {
        self.take(id)
    }

    /// Takes the first section of this name away, where there is one.
    pub fn remove_raw(&mut self, name: &str) -> Option<RawCustomSection> {
        let found = self.ids_where(|it| it.name == name);
        self.take(*found.first()?)
    }
}
