#!/usr/bin/env python3
"""Writes the images in crates/modseal/data. Run from the repository's root: python3 tools/sample_images.py"""
from format_page import ABSENT
from second_check import MISPLACED, Module, case, check, record, seal

FALSE, TRUE = b"\x00", b"\x01"
ACCEPTED = (0, 0, 0, 0, 0)

TYPES = [
    record(16, 1, 260),  # 0: Scalar
    record(17, 2, 3, 260),  # 1: Vector
    record(18, 3, 4, 4, 260),  # 2: Matrix
    record(19, 4, 8, 8, 260, 1),  # 3: CooperativeMatrix
    record(20, 5, 260),  # 4: Atomic
    record(21, 6, 0, 7),  # 5: Pointer
    record(22, 7, ABSENT, 260, 7),  # 6: ValuePointer
    record(23, 8, 0, case(0, 16), 4),  # 7: Array
    record(1, 9, 0, ABSENT, 0),  # two members
    record(1, 10, 1, ABSENT, 16),
    record(24, 11, 32),  # 8: Struct
    record(25, 12, 2, FALSE, 1),  # 9: Image
    record(26, 13, TRUE),  # 10: Sampler
    record(27, 14, FALSE),  # 11: AccelerationStructure
    record(28, 15, TRUE),  # 12: RayQuery
    record(29, 16, 9, case(2, ABSENT)),  # 13: BindingArray
]

GLOBALS = [
    record(64, 42),  # global expression 0: Literal
    record(4, 20, 0, 0),  # constant 0
    record(3, 21, ABSENT, 0, 0),  # override 0
    record(23, 22, 0, case(1, 0), 4),  # 14: an array sized by override 0
    record(5, 23, 1, ABSENT, 8, ABSENT, 0),  # global variable 0
    record(6, 8, ABSENT, ABSENT, ABSENT, 8),
    record(7, 24, 8),
    record(8, 25, ABSENT),  # filter 0
    record(8, 26, 0),  # filter 1
    record(9, 1),
]

HELPER = [record(11, 30, ABSENT), record(13, 31, 0, ABSENT), record(14, 0, ABSENT), record(73, 0), record(135, 0), record(31)]

EXPRESSIONS = [
    record(64, 42),  # 0: Literal
    record(65, 0),  # 1: Constant
    record(66, 0),  # 2: Override
    record(67, 0),  # 3: ZeroValue
    record(2, 0),
    record(2, 1),
    record(2, 3),
    record(68, 1),  # 4: Compose of three operands
    record(69, 4, 0),  # 5: Access
    record(70, 4, 1),  # 6: AccessIndex
    record(71, 3, 0),  # 7: Splat
    record(72, 3, 4, 0x030201),  # 8: Swizzle
    record(73, 0),  # 9: FunctionArgument
    record(74, 0),  # 10: GlobalVariable
    record(75, 0),  # 11: LocalVariable
    record(76, 11),  # 12: Load
    record(77, 10, 10, ABSENT, 4, ABSENT, 0, case(4, 4, 5), ABSENT, FALSE),  # 13: ImageSample
    record(78, 10, 4, ABSENT, ABSENT, 0),  # 14: ImageLoad
    record(79, 10, case(0, 0)),  # 15: ImageQuery
    record(80, 1, 0),  # 16: Unary
    record(81, 1, 0, 1),  # 17: Binary
    record(82, 0, 1, 2),  # 18: Select
    record(83, 0, 0, 4),  # 19: Derivative
    record(84, 1, 0),  # 20: Relational
    record(85, 5, 0, 1, ABSENT, ABSENT),  # 21: Math
    record(86, 0, 2, 4),  # 22: As
    record(87, 0),  # 23: CallResult
    record(88, 0, TRUE),  # 24: AtomicResult
    record(89, 0),  # 25: WorkGroupUniformLoadResult
    record(90, 10),  # 26: ArrayLength
    record(91, 11, TRUE),  # 27: RayQueryVertexPositions
    record(92),  # 28: RayQueryProceedResult
    record(93, 11, FALSE),  # 29: RayQueryGetIntersection
    record(94),  # 30: SubgroupBallotResult
    record(95, 0),  # 31: SubgroupOperationResult
    record(96, 8, 8, 1, 10, 0, TRUE),  # 32: CooperativeLoad
    record(97, 32, 32, 32),  # 33: CooperativeMultiplyAdd
]

STATEMENTS = [
    record(128, 4, 9),
    record(129), record(133), record(151),
    record(130, 0), record(134), record(151), record(136), record(151),
    record(131, 0), record(153, 1, FALSE), record(133), record(151), record(154),
    record(132), record(137, 1), record(151), record(138, 2), record(152, 20),
    record(139, 11, 0),
    record(140, 10, 4, ABSENT, 0),
    record(141, 10, case(7, 0), 0, 24),
    record(142, 10, 4, ABSENT, case(0, ABSENT), 0),
    record(143, 10, 25),
    record(2, 0),
    record(144, 0, 23),
    record(145, 11, case(0, 10, 0)),
    record(146, case(0, 10, 0, 11)),
    record(147, 30, 0),
    record(148, case(1, 0), 0, 31),
    record(149, 1, 2, 0, 31),
    record(150, 33, 10, 0, FALSE),
    record(135, 0),
]

BIG = [
    record(11, 40, 0), record(13, 41, 0, ABSENT), record(14, 0, ABSENT), record(15, 42, 0, ABSENT),
    *EXPRESSIONS, record(30, 4, 43), *STATEMENTS, record(31),
]

MESH = case(1, 1, 64, ABSENT, 126, 0, 8, 8, 0)
ENTRY = [record(12, 50, 1, ABSENT, 64, 0, ABSENT, ABSENT, 1, MESH, 0, ABSENT), record(135, ABSENT), record(31)]

# Every kind that may stand among the global expressions, a size with an init, and all that sealing looks at.
SEALED_GLOBALS = [
    record(4, 20, 0, 0),  # constant 0
    record(3, 21, ABSENT, 0, ABSENT),  # override 0
    record(3, 22, ABSENT, 1, 4),  # override 1, with global expression 4
    record(23, 23, 0, case(1, 0), 4),  # 14: an array sized by override 0
    record(23, 24, 1, case(1, 1), 4),  # 15: an array sized by override 1
    record(29, 25, 9, case(1, 1)),  # 16: a binding array sized by override 1
    record(64, 42),  # 0: Literal
    record(65, 0),  # 1: Constant
    record(66, 0),  # 2: Override
    record(67, 14),  # 3: ZeroValue
    record(2, 0),
    record(2, 1),
    record(2, 3),
    record(68, 8),  # 4: Compose of three operands
    record(69, 4, 0),  # 5: Access
    record(70, 4, 1),  # 6: AccessIndex
    record(71, 3, 0),  # 7: Splat
    record(72, 3, 4, 0x030201),  # 8: Swizzle
    record(76, 5),  # 9: Load
    record(77, 9, 9, ABSENT, 4, 0, 0, case(4, 4, 5), 2, FALSE),  # 10: ImageSample
    record(78, 9, 4, 0, ABSENT, 0),  # 11: ImageLoad
    record(79, 9, case(0, 0)),  # 12: ImageQuery
    record(80, 1, 0),  # 13: Unary
    record(81, 1, 0, 1),  # 14: Binary
    record(82, 0, 1, 2),  # 15: Select
    record(83, 0, 0, 4),  # 16: Derivative
    record(84, 1, 0),  # 17: Relational
    record(85, 5, 0, 1, 2, 3),  # 18: Math
    record(86, 0, 2, 4),  # 19: As
    record(88, 15, TRUE),  # 20: AtomicResult
    record(89, 16),  # 21: WorkGroupUniformLoadResult
    record(90, 9),  # 22: ArrayLength
    record(91, 9, TRUE),  # 23: RayQueryVertexPositions
    record(92),  # 24: RayQueryProceedResult
    record(93, 9, FALSE),  # 25: RayQueryGetIntersection
    record(94),  # 26: SubgroupBallotResult
    record(95, 0),  # 27: SubgroupOperationResult
    record(96, 8, 8, 1, 9, 0, TRUE),  # 28: CooperativeLoad
    record(97, 28, 28, 28),  # 29: CooperativeMultiplyAdd
    record(5, 26, 1, ABSENT, 8, 29, 0),  # global variable 0
    record(6, 8, 14, 15, 8, 16),
    record(7, 27, 8),
    record(7, 28, 16),
    record(8, 29, ABSENT),  # filter 0
    record(8, 30, 0),  # filter 1
    record(9, 1),
]

# A block in an If in a case of a Switch in a Loop, with both blocks of the Loop.
NESTED = [
    record(132),
    record(131, 0), record(153, 1, TRUE), record(151), record(153, 2, FALSE),
    record(130, 0), record(129), record(133), record(151), record(151), record(136), record(151),
    record(151), record(154),
    record(151), record(129), record(138, 2), record(151), record(152, 0),
]

COMPARED = [record(142, 10, 4, 0, case(7, 24), 0), record(141, 10, case(7, ABSENT), 0, 24)]

SEALED_ENTRY = [
    record(12, 50, 1, ABSENT, 64, 0, 29, ABSENT, 1, case(1, 1, 64, 29, 126, 28, 8, 15, 0), 0, 0),
    record(13, 51, 0, ABSENT), record(14, 8, ABSENT), record(15, 52, 16, 0),
    record(64, 42),  # 0: Literal
    record(73, 0),  # 1: FunctionArgument
    record(75, 0),  # 2: LocalVariable
    record(87, 1),  # 3: CallResult
    record(88, 16, TRUE),  # 4: AtomicResult
    record(2, 3),
    record(2, 1),
    record(68, 8),  # 5: Compose of two operands
    record(30, 5, 53),
    record(2, 1),
    record(144, 1, 3),
    *NESTED,
    record(142, 2, 1, ABSENT, case(7, 4), 5),
    record(135, 5),
    record(31),
]

WALKED = [
    record(16, 1, 260),  # type 0: Scalar
    record(23, 2, 0, case(0, 4), 4),  # type 1: an Array of type 0
    record(23, 3, 1, case(0, 2), 16),  # type 2: an Array of type 1
    record(8, 4, ABSENT),  # filter 0
    record(8, 5, 0),  # filter 1 below it
    record(64, 42),  # global expression 0: Literal
    record(3, 6, ABSENT, 0, 0),  # override 0
    record(66, 0),  # 1: Override
    record(81, 0, 0, 1),  # 2: Binary of 0 and 1
    record(81, 0, 0, 0),  # 3: Binary of 0 and 0
    # function 0: an argument, and its sum with a literal
    record(11, 7, 0), record(13, 8, 0, ABSENT), record(14, 0, ABSENT),
    record(73, 0),  # 0: FunctionArgument
    record(64, 1),  # 1: Literal
    record(81, 0, 0, 1),  # 2: Binary of 0 and 1
    record(135, 2), record(31),
    # function 1: calls function 0
    record(11, 9, ABSENT),
    record(64, 2),  # 0: Literal
    record(80, 0, 0),  # 1: Unary of 0
    record(87, 0),  # 2: CallResult
    record(2, 1), record(144, 0, 2), record(31),
    # entry point 0: three expressions, each over the one before it
    record(12, 10, 1, ABSENT, 64, *[ABSENT] * 4, case(0, *[ABSENT] * 8), ABSENT, ABSENT),
    record(64, 3),  # 0: Literal
    record(80, 0, 0),  # 1: Unary of 0
    record(81, 0, 1, 1),  # 2: Binary of 1 and 1
    record(31),
]

IMAGES = {
    "every_kind.img": [*TYPES, *GLOBALS, *HELPER, *BIG, *ENTRY],
    # every kind where it may stand, which sealing accepts
    "sealed.img": [*TYPES, *SEALED_GLOBALS, *HELPER, *BIG[:-1], *NESTED, *COMPARED, record(31), *SEALED_ENTRY],
    # 10 is no kind
    "no_such_kind.img": [record(16, 1, 260), record(10, 0), record(16, 2, 261)],
    # an Array that lacks its last byte
    "wrong_length.img": [record(16, 1, 260), record(23, 2, 0, case(2, ABSENT), 4)[:-1]],
    # an Array of length 0
    "bad_field.img": [record(16, 1, 260), record(23, 2, 0, case(0, 0), 4), record(16, 2, 261)],
    # a type inside a function
    "out_of_place.img": [record(11, 1, ABSENT), record(64, 42), record(16, 1, 260), record(31)],
    # a 65th bracket
    "too_deep.img": [record(11, 1, ABSENT), *[record(129)] * 65],
    # a type that comes twice, and a Struct that comes twice with its member
    "equal_types.img": [record(16, 1, 260), record(16, 1, 260), record(1, 2, 0, ABSENT, 0), record(24, 3, 4),
                        record(1, 2, 0, ABSENT, 0), record(24, 3, 4), record(16, 4, 261)],
    # a constant of type 5, where there is one type
    "not_inside.img": [record(16, 1, 260), record(64, 42), record(4, 2, 5, 0)],
    # an ImageSample that takes itself as gradient
    "not_earlier.img": [record(11, 1, ABSENT), *[record(64, 42)] * 4,
                        record(77, 0, 1, ABSENT, 2, ABSENT, ABSENT, case(4, 3, 4), ABSENT, FALSE), record(31)],
    # an empty range past the table, and one that ends before it starts
    "bad_range.img": [record(11, 1, ABSENT), record(128, 5, 5), record(128, 1, 0), record(31)],
    # an array whose size has as init a value of that array
    "sized_by_itself.img": [record(16, 1, 260), record(3, 2, ABSENT, 0, 0), record(23, 3, 0, case(1, 0), 4), record(67, 1)],
    # a function with a result of a call of itself
    "calls_itself.img": [record(16, 1, 260), record(11, 2, ABSENT), record(87, 0), record(31)],
    # a result that a later one replaces: only the later one's type is tested
    "replaced_result.img": [record(16, 1, 260), record(11, 2, ABSENT), record(14, 7, ABSENT), record(14, 0, ABSENT), record(31)],
    # a function that has not ended
    "unfinished.img": [record(11, 1, ABSENT), record(64, 42)],
    # small tables of each sort, to be walked: docs/MODSEAL.md has their values
    "walked.img": WALKED,
}

SCALAR, LITERAL, FUNCTION, END = record(16, 1, 260), record(64, 42), record(11, 1, ABSENT), record(31)

# One image for each place that only sealing tests, with the answer of sealing. The check passes each.
UNSEALED = {
    # among the global expressions: an argument, the two sorts of variables, the result of a call
    "global_argument.img": ([record(73, 0)], (11, 6, 0, 0, 0)),
    "global_variable.img": ([record(74, 0)], (11, 6, 0, 0, 0)),
    "global_local_variable.img": ([record(75, 0)], (11, 6, 0, 0, 0)),
    "global_call_result.img": ([record(87, 0)], (11, 6, 0, 0, 0)),
    # a global product before its left operand
    "product_before_operand.img": ([record(81, 1, 1, 2), LITERAL, LITERAL], (13, 6, 0, 1, 0)),
    # a global value of a type that is not there
    "global_type.img": ([record(67, 0)], (12, 1, 0, 0, 0)),
    # under the size of type 1 a constant of type 1
    "sized_by_constant.img": ([SCALAR, record(3, 2, ABSENT, 0, 1), record(23, 3, 0, case(1, 0), 4), LITERAL, record(4, 4, 1, 0),
                               record(65, 0)], (13, 1, 1, 1, 2)),
    # results of types that are not there
    "atomic_result_type.img": ([FUNCTION, record(88, 0, FALSE), END], (12, 1, 0, 0, 1)),
    "uniform_load_result_type.img": ([FUNCTION, record(89, 0), END], (12, 1, 0, 0, 1)),
    "subgroup_result_type.img": ([FUNCTION, record(95, 0), END], (12, 1, 0, 0, 1)),
    # argument 0 of a function without arguments
    "argument_number.img": ([FUNCTION, record(73, 0), END], (12, 8, 0, 0, 1)),
    # Calls of the same and of a later function, without a result
    "call_of_itself.img": ([FUNCTION, record(144, 0, ABSENT), END], (13, 7, 0, 0, 0)),
    "call_of_later.img": ([FUNCTION, record(144, 1, ABSENT), END, FUNCTION, END], (13, 7, 0, 1, 0)),
    # the last two special types, and a predeclared type
    "texture_params_type.img": ([record(6, ABSENT, ABSENT, ABSENT, 0, ABSENT)], (12, 1, 0, 0, 0)),
    "transfer_function_type.img": ([record(6, ABSENT, ABSENT, ABSENT, ABSENT, 0)], (12, 1, 0, 0, 0)),
    "predeclared_type.img": ([record(7, 1, 0)], (12, 1, 0, 0, 0)),
    # the incoming payload of an entry point
    "incoming_payload.img": ([record(12, 1, 1, ABSENT, 64, *[ABSENT] * 4, case(0, *[ABSENT] * 8), ABSENT, 0), END], (12, 4, 0, 0, 0)),
    # what an ImageAtomic compares with
    "compared_value.img": ([FUNCTION, LITERAL, record(142, 0, 0, ABSENT, case(7, 1), 0), END], (12, 6, 1, 0, 2)),
}
IMAGES |= {name: records for name, (records, _) in UNSEALED.items()}

KINDS = {*range(1, 10), *range(11, 32), *range(64, 98), *range(128, 155)}
for kinds in (IMAGES["every_kind.img"], IMAGES["sealed.img"]):
    missing = KINDS - {r[0] for r in kinds}
    assert not missing, missing

SEALED = Module(IMAGES["sealed.img"])
assert check(SEALED) == seal(SEALED) == ACCEPTED
assert {e.kind for e in SEALED.expressions} == {*range(64, 98)} - set(MISPLACED)
PAGE = open("docs/DIFFERENCES.md").read()
for image, (unsealed, numbers) in UNSEALED.items():
    assert check(Module(unsealed)) == ACCEPTED and seal(Module(unsealed)) == numbers, image
    assert f"| {' '.join(map(str, numbers))} | `{image}` |" in PAGE, image

if __name__ == "__main__":
    for name, records in IMAGES.items():
        with open("crates/modseal/data/" + name, "wb") as image:
            image.write(b"".join(records))
        print(name, len(records), "records")
