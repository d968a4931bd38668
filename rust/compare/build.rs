//! Ways to the proved library, which `bash build library` writes at the root of the repository: by
//! `nephinor`, which links it; and by the driver, a program that calls it and is asked by pipes, which
//! the compiler and the linker of the kit build. The library is for x86-64, and so is all of it.

use std::env;
use std::path::{Path, PathBuf};
use std::process::Command;

const LIBRARY_TARGET: &str = "x86_64-unknown-linux-gnu";

fn main() {
    if let Err(reason) = build() {
        eprintln!("compare: {reason}");
        std::process::exit(1);
    }
}

fn build() -> Result<(), String> {
    let here = Path::new(env!("CARGO_MANIFEST_DIR"));
    let archive = here.join("../../target/staticlib/libnephinor.a");
    println!("cargo::rerun-if-changed={}", archive.display());
    if !archive.is_file() {
        let name = archive.display();
        return Err(format!("{name} is missing: run `bash build library` at the root first"));
    }
    if env::var("CARGO_CFG_TARGET_ARCH").as_deref() != Ok("x86_64") {
        return Err("the library is for x86-64, and what cargo builds here is not".to_string());
    }

    let kit = Kit::found()?;
    let driver = kit.compiled(here, "driver")?;
    let faulty = kit.compiled(here, "faulty")?;
    kit.link("DRIVER", "driver", &[&driver, &archive])?;
    kit.link("FAULTY_DRIVER", "faulty-driver", &[&driver, &faulty])?;
    Ok(())
}

/// The kit's tools, and where to write.
struct Kit {
    tools: PathBuf,
    linker: PathBuf,
    out: PathBuf,
}

impl Kit {
    /// `rt doc` names a file in the kit's own folder.
    fn found() -> Result<Kit, String> {
        println!("cargo::rerun-if-env-changed=PATH");
        let said = Command::new("rt").arg("doc").output();
        let said = said.map_err(|error| format!("`rt doc` cannot be run: {error}"))?;
        let guide = String::from_utf8_lossy(&said.stdout);
        let home = Path::new(guide.trim()).parent().ok_or("`rt doc` names no file")?;
        let tools = home.join("toolchain");
        let out = env::var_os("OUT_DIR").ok_or("cargo names no folder to write to")?;
        Ok(Kit { tools, linker: home.join("bin/rattle-link"), out: out.into() })
    }

    /// Compiles driver/NAME.c for the library's kind of machine.
    fn compiled(&self, here: &Path, name: &str) -> Result<PathBuf, String> {
        let source = here.join("driver").join(name).with_extension("c");
        println!("cargo::rerun-if-changed={}", source.display());
        let object = self.out.join(name).with_extension("o");
        let mut compiler = Command::new(self.tools.join("bin/clang"));
        compiler.arg(format!("--target={LIBRARY_TARGET}"));
        compiler.args(["-std=c11", "-O2", "-fPIE", "-Wall", "-Wextra", "-Werror", "-c", "-o"]);
        done(compiler.arg(&object).arg(source))?;
        Ok(object)
    }

    /// Links a program, which the crate then knows by a variable.
    fn link(&self, variable: &str, name: &str, parts: &[&Path]) -> Result<(), String> {
        let program = self.out.join(name);
        let mut linker = Command::new(&self.linker);
        linker.args(["--target", LIBRARY_TARGET, "--toolchain"]).arg(&self.tools);
        done(linker.arg("-o").arg(&program).args(parts))?;
        println!("cargo::rustc-env={variable}={}", program.display());
        Ok(())
    }
}

fn done(command: &mut Command) -> Result<(), String> {
    let tool = command.get_program().to_string_lossy().into_owned();
    match command.status() {
        Ok(status) if status.success() => Ok(()),
        Ok(status) => Err(format!("the driver was not built: {tool} failed ({status})")),
        Err(error) => Err(format!("the driver was not built: {tool} cannot be run ({error})")),
    }
}
