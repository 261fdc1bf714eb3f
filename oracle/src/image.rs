//! An image cut into parts, and the fields of a part read one by one.
use crate::layout::length;
use naga::{
    handle, ArraySize, AtomicFunction, CooperativeData, GatherMode, Handle, ImageQuery,
    MeshStageInfo, RayPipelineFunction, RayQueryFunction, SampleLevel,
};
use std::num::NonZeroU32;

/// The parts of an image.
pub struct Parts<'a> {
    rest: &'a [u8],
}

impl<'a> Parts<'a> {
    pub fn new(image: &'a [u8]) -> Self {
        Parts { rest: image }
    }
}

impl<'a> Iterator for Parts<'a> {
    type Item = &'a [u8];

    fn next(&mut self) -> Option<&'a [u8]> {
        let &kind = self.rest.first()?;
        let size = length(kind).unwrap_or(self.rest.len()).min(self.rest.len());
        let (part, rest) = self.rest.split_at(size);
        self.rest = rest;
        Some(part)
    }
}

/// A field holds what it may not.
#[derive(Debug)]
pub struct BadField;

/// The fields of a record that are not read yet. The record is as long as its kind fixes.
pub struct Fields<'a> {
    rest: &'a [u8],
}

impl<'a> Fields<'a> {
    pub fn new(body: &'a [u8]) -> Self {
        Fields { rest: body }
    }

    pub fn is_empty(&self) -> bool {
        self.rest.is_empty()
    }

    fn byte(&mut self) -> u8 {
        let (byte, rest) = self.rest.split_at(1);
        self.rest = rest;
        byte[0]
    }

    /// A mark or a number.
    pub fn word(&mut self) -> u32 {
        let (word, rest) = self.rest.split_at(4);
        self.rest = rest;
        u32::from_le_bytes(word.try_into().expect("a word has four bytes"))
    }

    pub fn optional<T>(&mut self) -> Option<Handle<T>> {
        handle(self.word())
    }

    pub fn handle<T>(&mut self) -> Result<Handle<T>, BadField> {
        self.optional().ok_or(BadField)
    }

    pub fn flag(&mut self) -> Result<bool, BadField> {
        match self.byte() {
            0 => Ok(false),
            1 => Ok(true),
            _ => Err(BadField),
        }
    }

    /// So many words that the case does not use.
    fn unused(&mut self, count: usize) -> Result<(), BadField> {
        let (words, rest) = self.rest.split_at(4 * count);
        self.rest = rest;
        if words.iter().all(|&byte| byte == 0xFF) {
            Ok(())
        } else {
            Err(BadField)
        }
    }

    /// A case without words, where the widest case has so many.
    fn bare<T>(&mut self, case: T, width: usize) -> Result<T, BadField> {
        self.unused(width)?;
        Ok(case)
    }

    pub fn array_size(&mut self) -> Result<ArraySize, BadField> {
        match self.byte() {
            0 => {
                let length = NonZeroU32::new(self.word()).ok_or(BadField)?;
                Ok(ArraySize::Constant(length))
            }
            1 => Ok(ArraySize::Pending(self.handle()?)),
            2 => self.bare(ArraySize::Dynamic, 1),
            _ => Err(BadField),
        }
    }

    pub fn sample_level(&mut self) -> Result<SampleLevel, BadField> {
        match self.byte() {
            0 => self.bare(SampleLevel::Auto, 2),
            1 => self.bare(SampleLevel::Zero, 2),
            2 => {
                let level = SampleLevel::Exact(self.handle()?);
                self.bare(level, 1)
            }
            3 => {
                let level = SampleLevel::Bias(self.handle()?);
                self.bare(level, 1)
            }
            4 => Ok(SampleLevel::Gradient {
                x: self.handle()?,
                y: self.handle()?,
            }),
            _ => Err(BadField),
        }
    }

    pub fn image_query(&mut self) -> Result<ImageQuery, BadField> {
        match self.byte() {
            0 => Ok(ImageQuery::Size {
                level: self.optional(),
            }),
            1 => self.bare(ImageQuery::NumLevels, 1),
            2 => self.bare(ImageQuery::NumLayers, 1),
            3 => self.bare(ImageQuery::NumSamples, 1),
            _ => Err(BadField),
        }
    }

    pub fn atomic_function(&mut self) -> Result<AtomicFunction, BadField> {
        match self.byte() {
            0 => self.bare(AtomicFunction::Add, 1),
            1 => self.bare(AtomicFunction::Subtract, 1),
            2 => self.bare(AtomicFunction::And, 1),
            3 => self.bare(AtomicFunction::ExclusiveOr, 1),
            4 => self.bare(AtomicFunction::InclusiveOr, 1),
            5 => self.bare(AtomicFunction::Min, 1),
            6 => self.bare(AtomicFunction::Max, 1),
            7 => Ok(AtomicFunction::Exchange {
                compare: self.optional(),
            }),
            _ => Err(BadField),
        }
    }

    pub fn gather_mode(&mut self) -> Result<GatherMode, BadField> {
        match self.byte() {
            0 => self.bare(GatherMode::BroadcastFirst, 1),
            1 => Ok(GatherMode::Broadcast(self.handle()?)),
            2 => Ok(GatherMode::Shuffle(self.handle()?)),
            3 => Ok(GatherMode::ShuffleDown(self.handle()?)),
            4 => Ok(GatherMode::ShuffleUp(self.handle()?)),
            5 => Ok(GatherMode::ShuffleXor(self.handle()?)),
            6 => Ok(GatherMode::QuadBroadcast(self.handle()?)),
            7 => Ok(GatherMode::QuadSwap(self.word())),
            _ => Err(BadField),
        }
    }

    pub fn ray_query_function(&mut self) -> Result<RayQueryFunction, BadField> {
        match self.byte() {
            0 => Ok(RayQueryFunction::Initialize {
                acceleration_structure: self.handle()?,
                descriptor: self.handle()?,
            }),
            1 => {
                let result = self.handle()?;
                self.bare(RayQueryFunction::Proceed { result }, 1)
            }
            2 => {
                let hit_t = self.handle()?;
                self.bare(RayQueryFunction::GenerateIntersection { hit_t }, 1)
            }
            3 => self.bare(RayQueryFunction::ConfirmIntersection, 2),
            4 => self.bare(RayQueryFunction::Terminate, 2),
            _ => Err(BadField),
        }
    }

    pub fn ray_pipeline_function(&mut self) -> Result<RayPipelineFunction, BadField> {
        match self.byte() {
            0 => Ok(RayPipelineFunction::TraceRay {
                acceleration_structure: self.handle()?,
                descriptor: self.handle()?,
                payload: self.handle()?,
            }),
            _ => Err(BadField),
        }
    }

    pub fn mesh_info(&mut self) -> Result<Option<MeshStageInfo>, BadField> {
        match self.byte() {
            0 => self.bare(None, 8),
            1 => Ok(Some(MeshStageInfo {
                topology: self.word(),
                max_vertices: self.word(),
                max_vertices_override: self.optional(),
                max_primitives: self.word(),
                max_primitives_override: self.optional(),
                vertex_output_type: self.handle()?,
                primitive_output_type: self.handle()?,
                output_variable: self.handle()?,
            })),
            _ => Err(BadField),
        }
    }

    pub fn cooperative_data(&mut self) -> Result<CooperativeData, BadField> {
        Ok(CooperativeData {
            pointer: self.handle()?,
            stride: self.handle()?,
            row_major: self.flag()?,
        })
    }
}
