//! The old humidity archive: Upper Tropospheric Humidity files in OpenMTP form.
use crate::answers::ask;
use crate::{Fault, Refused, Result};
use warpladle_sys as sys;

/// A block of a humidity file.
#[derive(Clone, Copy, Debug, PartialEq)]
pub struct Block {
    /// 1 to 80.
    pub line: u32,
    /// 1 to 80.
    pub column: u32,
    /// Upper tropospheric humidity in percent; `None` where it is not finite.
    pub uth: Option<f32>,
    /// Clear sky radiance as a temperature in Kelvin; `None` where it is not finite.
    pub csr: Option<f32>,
}

/// The blocks of a humidity file, in their order.
pub fn humidity(bytes: &[u8]) -> Result<Vec<Block>> {
    let n = match read(bytes, &mut [], &mut []) {
        Err(Refused { fault: Fault::Room, place }) => place as usize,
        other => other?,
    };
    let (mut blocks, mut values) = (vec![[0; 4]; n], vec![[0.0; 2]; n]);
    read(bytes, &mut blocks, &mut values)?;
    Ok(blocks.iter().zip(&values).map(|(block, value)| block_of(block, value)).collect())
}

fn read(bytes: &[u8], blocks: &mut [[u32; 4]], values: &mut [[f32; 2]]) -> Result<usize> {
    let (n, m) = (blocks.len(), values.len());
    // SAFETY: as `ask` says.
    let answer = ask::<4>(|answer| unsafe {
        sys::wl_uth(bytes.as_ptr(), bytes.len(), blocks.as_mut_ptr(), n, values.as_mut_ptr(), m, answer)
    })?;
    Ok(answer[2] as usize)
}

fn block_of([line, column, uth, csr]: &[u32; 4], value: &[f32; 2]) -> Block {
    Block { line: *line, column: *column, uth: (*uth != 0).then_some(value[0]), csr: (*csr != 0).then_some(value[1]) }
}
