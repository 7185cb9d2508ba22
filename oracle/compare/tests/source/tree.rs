//! The crates' files by their modules, and what a path in one of them names.

use crate::code::{self, Call, File, Function};
use compare::{files, read};
use std::collections::{BTreeMap, BTreeSet};

/// Files by their paths from the repository's top.
pub type Texts = BTreeMap<String, String>;

pub type Module = Vec<String>;

/// The source of every crate.
pub fn texts() -> Texts {
    let with_text = |path: String| (path.clone(), read(&path));
    files("crates", ".rt").into_iter().map(with_text).collect()
}

pub struct Tree {
    files: BTreeMap<Module, (String, File)>,
}

/// A function that is reached, and each of its calls with what it may call, where that is known.
pub struct Reached<'a> {
    pub path: &'a str,
    pub module: &'a Module,
    pub function: &'a Function,
    pub calls: Vec<(Call, Option<&'a Function>)>,
}

impl Tree {
    pub fn of(texts: &Texts) -> Tree {
        let files = texts.iter().filter_map(|(path, text)| {
            let module = module(path)?;
            Some((module, (path.clone(), code::file(text))))
        });
        Tree {
            files: files.collect(),
        }
    }

    pub fn path(&self, module: &Module) -> &str {
        &self.files[module].0
    }

    pub fn file(&self, module: &Module) -> &File {
        &self.files[module].1
    }

    /// Every function that the one named is made of, itself first.
    pub fn reached(&self, from: [&str; 3]) -> Vec<Reached<'_>> {
        let start = self
            .function(&from.map(String::from))
            .expect("the first function");
        let mut out: Vec<Reached> = Vec::new();
        let mut next = vec![start];
        while let Some((module, function)) = next.pop() {
            if out
                .iter()
                .any(|known| std::ptr::eq(known.function, function))
            {
                continue;
            }
            let mut calls = Vec::new();
            for call in code::calls(&function.body) {
                let called = self.called(module, &call);
                next.extend(&called);
                let to = called.iter().map(|(_, function)| Some(*function));
                let to: Vec<_> = to.chain(called.is_empty().then_some(None)).collect();
                calls.extend(to.into_iter().map(|to| (call.clone(), to)));
            }
            out.push(Reached {
                path: self.path(module),
                module,
                function,
                calls,
            });
        }
        out
    }

    /// The files of some functions, and all that these files name.
    pub fn named<'a>(&'a self, reached: &[Reached<'a>]) -> BTreeSet<&'a Module> {
        let mut out = BTreeSet::new();
        let mut next: Vec<&Module> = reached.iter().map(|one| one.module).collect();
        while let Some(module) = next.pop() {
            if out.insert(module) {
                let paths = code::paths(&self.file(module).code);
                let full = paths.iter().map(|path| self.full(module, path));
                next.extend(full.filter_map(|path| self.module_of(&path)));
            }
        }
        out
    }

    /// What a call may call: of a method every one of its name, since no type is looked at.
    fn called(&self, module: &Module, call: &Call) -> Vec<(&Module, &Function)> {
        if call.is_method {
            return self.methods(&call.path[0]);
        }
        let function = self.function(&self.full(module, &call.path));
        function.into_iter().collect()
    }

    fn methods(&self, name: &str) -> Vec<(&Module, &Function)> {
        let functions = self
            .files
            .iter()
            .flat_map(|(module, (_, file))| file.functions.iter().map(move |f| (module, f)));
        functions
            .filter(|(_, function)| function.is_method() && function.name == name)
            .collect()
    }

    fn function(&self, full: &[String]) -> Option<(&Module, &Function)> {
        let (name, of) = full.split_last()?;
        // a function of a type stands in the type's file
        let is_module = |part: &&String| !part.starts_with(char::is_uppercase);
        let of: Module = of.iter().filter(is_module).cloned().collect();
        let (module, (_, file)) = self.files.get_key_value(&of)?;
        let mut named = file.functions.iter().filter(|f| f.name == *name);
        let function = named.next()?;
        named.next().is_none().then_some((module, function))
    }

    /// The innermost module along a path.
    fn module_of(&self, full: &[String]) -> Option<&Module> {
        let mut prefixes = (1..=full.len()).rev().map(|long| &full[..long]);
        prefixes.find_map(|prefix| Some(self.files.get_key_value(prefix)?.0))
    }

    /// A path as a file has it, from its crate's name on.
    fn full(&self, module: &Module, path: &[String]) -> Vec<String> {
        let used = &self.file(module).uses;
        match used.iter().find(|used| used.last() == path.first()) {
            Some(used) => [&self.rooted(module, used), &path[1..]].concat(),
            None => self.rooted(module, path),
        }
    }

    fn rooted(&self, module: &Module, path: &[String]) -> Vec<String> {
        let above = &module[..module.len() - 1];
        let own = [module, &path[..1]].concat();
        match path[0].as_str() {
            "crate" => [&module[..1], &path[1..]].concat(),
            "self" | "Self" => [module, &path[1..]].concat(),
            "super" => [above, &path[1..]].concat(),
            _ if path.len() > 1 && !self.files.contains_key(&own) => path.to_vec(),
            _ => [module, path].concat(),
        }
    }
}

/// crates/a/src/lib.rt is the module a, and crates/a/src/b/c.rt is a::b::c.
fn module(path: &str) -> Option<Module> {
    let (of, within) = path.strip_prefix("crates/")?.split_once("/src/")?;
    let within = within.strip_suffix(".rt")?;
    let parts = within.split('/').filter(|part| *part != "lib");
    Some([of].into_iter().chain(parts).map(String::from).collect())
}
