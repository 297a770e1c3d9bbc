// The types of the documents and answers of rc. tools/form/write makes this file.
//
// A document may leave out a field that is empty, false or null, or spell it out. An answer has one form: it leaves out
// a field that would be null, and no other. So there are two types of each part, for what is read and what is printed.
// `rc json` prints an answer; docs/ANSWER.md says how its two tables of blocks and values are read.

export type Document = Read.Document;
export type Answer = Printed.Answer;

/** What rc reads. */
export namespace Read {
  /** Start and end in the source. */
  export type Span = [start: number, end: number];

  /** A use of an identifier; its number alone means effect Read, not reactive and no span. */
  export type Place = IdentifierId | [identifier: IdentifierId, effect: Effect, reactive: boolean, span?: Span];

  /** The number of a block. */
  export type BlockId = number;

  /** The number of an identifier, an index in the table of identifiers. */
  export type IdentifierId = number;

  /** The number of a declaration; declarations share the range of the identifiers. */
  export type DeclarationId = number;

  /** The number of a type, an index in the table of types. */
  export type TypeId = number;

  /** The number of a reactive scope, an index in the table of scopes. */
  export type ScopeId = number;

  /** The number of a nested function, an index in the table of functions. */
  export type FunctionId = number;

  /** The number of a row, an index in its function's instructions. */
  export type InstructionId = number;

  /** The place of a row or a terminal in the order of evaluation; 0 means that it is unset. */
  export type EvaluationOrder = number;

  /** A whole number. */
  export type u32 = number;

  /** A function with the tables that its numbers name. */
  export interface Document {
    /** The function. */
    hir: HirFunction;
    /** The tables. */
    env: Environment;
  }

  /** A function as a graph of basic blocks. */
  export interface HirFunction {
    /** Where the function is in the source. */
    span?: Span | null;
    /** The function's own name. */
    id?: string | null;
    /** A name for a function that has none, as of the variable that it is stored to. */
    name_hint?: string | null;
    /** The parameters, in their order. */
    params?: ParamPattern[];
    /** Whether it is a generator. */
    generator?: boolean;
    /** Whether it is async. */
    is_async?: boolean;
    /** The places of the functions around it that it uses. */
    context?: Place[];
    /** The graph. */
    body: Hir;
    /** The rows, which blocks list by their index here. */
    instructions?: Instruction[];
    /** The directives at the start of the function, as "use memo". */
    directives?: string[];
  }

  /** The blocks of a function. */
  export interface Hir {
    /** The block at which the function begins. */
    entry: BlockId;
    /** The blocks, in graph order; no two have the same key. */
    blocks: BasicBlock[];
  }

  /** Rows that run one after the other, and the terminal that ends them. */
  export interface BasicBlock {
    /** The key by which the block is found; it is the block's id where it is left out. */
    key?: BlockId | null;
    /** The block's number. */
    id: BlockId;
    /** The rows, as indexes in the function's instructions. */
    instructions?: InstructionId[];
    /** How the block ends. */
    terminal: Terminal;
  }

  /** A row, which computes a value for its target. */
  export interface Instruction {
    /** The row's order of evaluation. */
    id: EvaluationOrder;
    /** The target. */
    lvalue: Place;
    /** What is computed. */
    value: InstructionValue;
    /** Where the row is in the source. */
    span?: Span | null;
  }

  /**
   * What a row does to the value of a place; from Capture on it may change the value. Unknown: not inferred yet.
   * Freeze: the value must not change from here on. Read: the value is read. Capture: the value is put into another
   * one. ConditionallyMutateIterator: an iterator is advanced, where the value is one. ConditionallyMutate: the value
   * is changed, where it may be. Mutate: the value is changed. Store: a name or a property is written.
   */
  export type Effect =
    | "Unknown"
    | "Freeze"
    | "Read"
    | "Capture"
    | "ConditionallyMutateIterator"
    | "ConditionallyMutate"
    | "Mutate"
    | "Store";

  /** A place after three dots. */
  export interface SpreadPattern {
    /** The place. */
    place: Place;
  }

  /** A parameter of a function. */
  export type ParamPattern = ParamPattern_Place | ParamPattern_Spread;

  /** One argument. */
  export interface ParamPattern_Place {
    k: "Place";
    v: Place;
  }

  /** All further arguments. */
  export interface ParamPattern_Spread {
    k: "Spread";
    v: SpreadPattern;
  }

  /** An argument of a call. */
  export type PlaceOrSpread = PlaceOrSpread_Place | PlaceOrSpread_Spread;

  /** One value. */
  export interface PlaceOrSpread_Place {
    k: "Place";
    v: Place;
  }

  /** All that a value iterates over. */
  export interface PlaceOrSpread_Spread {
    k: "Spread";
    v: SpreadPattern;
  }

  /** An entry of an array literal. Hole: nothing. */
  export type ArrayElement = "Hole" | ArrayElement_Place | ArrayElement_Spread;

  /** One value. */
  export interface ArrayElement_Place {
    k: "Place";
    v: Place;
  }

  /** All that a value iterates over. */
  export interface ArrayElement_Spread {
    k: "Spread";
    v: SpreadPattern;
  }

  /** An entry of an array pattern. Hole: an item that is passed over. */
  export type ArrayPatternElement = "Hole" | ArrayPatternElement_Place | ArrayPatternElement_Spread;

  /** One item. */
  export interface ArrayPatternElement_Place {
    k: "Place";
    v: Place;
  }

  /** All further items. */
  export interface ArrayPatternElement_Spread {
    k: "Spread";
    v: SpreadPattern;
  }

  /**
   * How a name is bound or written. Const: a const is bound. Let: a let or a var is bound. Reassign: a name that is
   * bound already is written. Catch: the name of a catch clause is bound. Function: a function declaration is bound.
   * HoistedConst: a const is announced before it is bound. HoistedLet: a let is announced before it is bound.
   * HoistedFunction: a function declaration is announced before it is bound.
   */
  export type InstructionKind =
    | "Const"
    | "Let"
    | "Reassign"
    | "Catch"
    | "Function"
    | "HoistedConst"
    | "HoistedLet"
    | "HoistedFunction";

  /** A place that is written. */
  export interface LValue {
    /** How it is written. */
    kind: InstructionKind;
    /** The place. */
    place: Place;
  }

  /** A pattern whose places are written. */
  export interface LValuePattern {
    /** How they are written. */
    kind: InstructionKind;
    /** The pattern. */
    pattern: Pattern;
  }

  /** The parts into which a value is taken apart. */
  export type Pattern = Pattern_Array | Pattern_Object;

  /** The items of an iterable. */
  export interface Pattern_Array {
    k: "Array";
    /** The places that get them. */
    items?: ArrayPatternElement[];
  }

  /** The properties of an object. */
  export interface Pattern_Object {
    k: "Object";
    /** The places that get them. */
    properties?: ObjectPropertyOrSpread[];
  }

  /** An entry of an object literal or of an object pattern. */
  export type ObjectPropertyOrSpread = ObjectPropertyOrSpread_Property | ObjectPropertyOrSpread_Spread;

  /** One property. */
  export interface ObjectPropertyOrSpread_Property {
    k: "Property";
    v: ObjectProperty;
  }

  /** All properties of a value, or the rest of them. */
  export interface ObjectPropertyOrSpread_Spread {
    k: "Spread";
    v: SpreadPattern;
  }

  /** A property with its place. */
  export interface ObjectProperty {
    /** The property's key. */
    key: ObjectPropertyKey;
    /** The place that it comes from, or goes to. */
    place: Place;
  }

  /** The key of a property. */
  export type ObjectPropertyKey =
    | ObjectPropertyKey_Identifier
    | ObjectPropertyKey_String
    | ObjectPropertyKey_Number
    | ObjectPropertyKey_Computed;

  /** An identifier. */
  export interface ObjectPropertyKey_Identifier {
    k: "Identifier";
    v: string;
  }

  /** A string. */
  export interface ObjectPropertyKey_String {
    k: "String";
    v: string;
  }

  /** A number, as it is written in the source. */
  export interface ObjectPropertyKey_Number {
    k: "Number";
    v: string;
  }

  /** A value that is computed. */
  export interface ObjectPropertyKey_Computed {
    k: "Computed";
    v: Place;
  }

  /** The name of a property that is read, written or deleted. */
  export type PropertyLiteral = PropertyLiteral_String | PropertyLiteral_Number;

  /** A name. */
  export interface PropertyLiteral_String {
    k: "String";
    v: string;
  }

  /** A number, as it is written in the source. */
  export interface PropertyLiteral_Number {
    k: "Number";
    v: string;
  }

  /** A literal of a primitive type. Null: null. Undefined: undefined. */
  export type PrimitiveValue =
    | "Null"
    | "Undefined"
    | PrimitiveValue_Boolean
    | PrimitiveValue_Number
    | PrimitiveValue_String;

  /** True or false. */
  export interface PrimitiveValue_Boolean {
    k: "Boolean";
    v?: boolean;
  }

  /** A number, as it is written in the source. */
  export interface PrimitiveValue_Number {
    k: "Number";
    v: string;
  }

  /** A string. */
  export interface PrimitiveValue_String {
    k: "String";
    v: string;
  }

  /** A name from outside the function. */
  export type NonLocalBinding = NonLocalBinding_Global | NonLocalBinding_Module;

  /** A name of the global scope. */
  export interface NonLocalBinding_Global {
    k: "Global";
    /** The name. */
    name: string;
  }

  /** A name that is imported, or that the module declares. */
  export interface NonLocalBinding_Module {
    k: "Module";
    /** The name. */
    name: string;
    /** The module that it is imported from. */
    module: string;
  }

  /** The tag of a JSX element. */
  export type JsxTag = JsxTag_Place | JsxTag_Builtin;

  /** A component. */
  export interface JsxTag_Place {
    k: "Place";
    v: Place;
  }

  /** An element of the platform, by its name. */
  export interface JsxTag_Builtin {
    k: "Builtin";
    v: string;
  }

  /** An attribute of a JSX element. */
  export type JsxAttribute = JsxAttribute_Attribute | JsxAttribute_SpreadAttribute;

  /** One attribute. */
  export interface JsxAttribute_Attribute {
    k: "Attribute";
    /** Its name. */
    name: string;
    /** Its value. */
    place: Place;
  }

  /** All properties of a value. */
  export interface JsxAttribute_SpreadAttribute {
    k: "SpreadAttribute";
    /** The value. */
    argument: Place;
  }

  /** An operator that may skip its right side. And: &&. Or: ||. Coalesce: ??. */
  export type LogicalOperator = "And" | "Or" | "Coalesce";

  /** A nested function. */
  export interface LoweredFunction {
    /** Its number in the table of functions. */
    func: FunctionId;
  }

  /** What a row computes; the 42 kinds. */
  export type InstructionValue =
    | InstructionValue_LoadLocal
    | InstructionValue_LoadContext
    | InstructionValue_DeclareLocal
    | InstructionValue_DeclareContext
    | InstructionValue_StoreLocal
    | InstructionValue_StoreContext
    | InstructionValue_Destructure
    | InstructionValue_Primitive
    | InstructionValue_JSXText
    | InstructionValue_BinaryExpression
    | InstructionValue_UnaryExpression
    | InstructionValue_TypeCastExpression
    | InstructionValue_Await
    | InstructionValue_NewExpression
    | InstructionValue_CallExpression
    | InstructionValue_MethodCall
    | InstructionValue_ObjectExpression
    | InstructionValue_ObjectMethod
    | InstructionValue_FunctionExpression
    | InstructionValue_ArrayExpression
    | InstructionValue_JsxExpression
    | InstructionValue_JsxFragment
    | InstructionValue_RegExpLiteral
    | InstructionValue_MetaProperty
    | InstructionValue_PropertyLoad
    | InstructionValue_PropertyDelete
    | InstructionValue_PropertyStore
    | InstructionValue_ComputedLoad
    | InstructionValue_ComputedDelete
    | InstructionValue_ComputedStore
    | InstructionValue_LoadGlobal
    | InstructionValue_StoreGlobal
    | InstructionValue_TaggedTemplateExpression
    | InstructionValue_TemplateLiteral
    | InstructionValue_GetIterator
    | InstructionValue_IteratorNext
    | InstructionValue_NextPropertyOf
    | InstructionValue_PrefixUpdate
    | InstructionValue_PostfixUpdate
    | InstructionValue_Debugger
    | InstructionValue_StartMemoize
    | InstructionValue_FinishMemoize;

  /** The value of a local name. */
  export interface InstructionValue_LoadLocal {
    k: "LoadLocal";
    /** The name. */
    place: Place;
    /** Where it is in the source. */
    span?: Span | null;
  }

  /** The value of a name that nested functions share. */
  export interface InstructionValue_LoadContext {
    k: "LoadContext";
    /** The name. */
    place: Place;
    /** Where it is in the source. */
    span?: Span | null;
  }

  /** A local name is declared without a value. */
  export interface InstructionValue_DeclareLocal {
    k: "DeclareLocal";
    /** The name. */
    lvalue: LValue;
    /** Where it is in the source. */
    span?: Span | null;
  }

  /** A name that nested functions share is declared without a value. */
  export interface InstructionValue_DeclareContext {
    k: "DeclareContext";
    /** The name. */
    lvalue: LValue;
    /** Where it is in the source. */
    span?: Span | null;
  }

  /** A local name gets a value. */
  export interface InstructionValue_StoreLocal {
    k: "StoreLocal";
    /** The name. */
    lvalue: LValue;
    /** The value. */
    value: Place;
    /** Where it is in the source. */
    span?: Span | null;
  }

  /** A name that nested functions share gets a value. */
  export interface InstructionValue_StoreContext {
    k: "StoreContext";
    /** The name. */
    lvalue: LValue;
    /** The value. */
    value: Place;
    /** Where it is in the source. */
    span?: Span | null;
  }

  /** A value is taken apart. */
  export interface InstructionValue_Destructure {
    k: "Destructure";
    /** The places that get its parts. */
    lvalue: LValuePattern;
    /** The value. */
    value: Place;
    /** Where it is in the source. */
    span?: Span | null;
  }

  /** A literal. */
  export interface InstructionValue_Primitive {
    k: "Primitive";
    /** The literal. */
    value: PrimitiveValue;
    /** Where it is in the source. */
    span?: Span | null;
  }

  /** Text between JSX tags. */
  export interface InstructionValue_JSXText {
    k: "JSXText";
    /** The text. */
    value: string;
    /** Where it is in the source. */
    span?: Span | null;
  }

  /** A binary operator but &&, || and ??. */
  export interface InstructionValue_BinaryExpression {
    k: "BinaryExpression";
    /** The operator, as it is written. */
    operator: string;
    /** The left side. */
    left: Place;
    /** The right side. */
    right: Place;
    /** Where it is in the source. */
    span?: Span | null;
  }

  /** A unary operator but delete. */
  export interface InstructionValue_UnaryExpression {
    k: "UnaryExpression";
    /** The operator, as it is written. */
    operator: string;
    /** The operand. */
    value: Place;
    /** Where it is in the source. */
    span?: Span | null;
  }

  /** A value with the type that the source gives it. */
  export interface InstructionValue_TypeCastExpression {
    k: "TypeCastExpression";
    /** The value. */
    value: Place;
    /** The type, as it is written. */
    annotation: string;
    /** Where it is in the source. */
    span?: Span | null;
  }

  /** Await. */
  export interface InstructionValue_Await {
    k: "Await";
    /** What is awaited. */
    value: Place;
    /** Where it is in the source. */
    span?: Span | null;
  }

  /** New. */
  export interface InstructionValue_NewExpression {
    k: "NewExpression";
    /** The constructor. */
    callee: Place;
    /** The arguments. */
    args?: PlaceOrSpread[];
    /** Where it is in the source. */
    span?: Span | null;
  }

  /** A call. */
  export interface InstructionValue_CallExpression {
    k: "CallExpression";
    /** The function. */
    callee: Place;
    /** The arguments. */
    args?: PlaceOrSpread[];
    /** Where it is in the source. */
    span?: Span | null;
  }

  /** A call of a property of a value. */
  export interface InstructionValue_MethodCall {
    k: "MethodCall";
    /** The value. */
    receiver: Place;
    /** The property that is called, as an earlier row loaded it. */
    property: Place;
    /** The arguments. */
    args?: PlaceOrSpread[];
    /** Where it is in the source. */
    span?: Span | null;
  }

  /** An object literal. */
  export interface InstructionValue_ObjectExpression {
    k: "ObjectExpression";
    /** Its entries. */
    properties?: ObjectPropertyOrSpread[];
    /** Where it is in the source. */
    span?: Span | null;
  }

  /** A method of an object literal. */
  export interface InstructionValue_ObjectMethod {
    k: "ObjectMethod";
    /** The function. */
    lowered_func: LoweredFunction;
    /** Where it is in the source. */
    span?: Span | null;
  }

  /** A function expression, an arrow function or a function declaration. */
  export interface InstructionValue_FunctionExpression {
    k: "FunctionExpression";
    /** The function's name. */
    name?: string | null;
    /** The function. */
    lowered_func: LoweredFunction;
    /** Where it is in the source. */
    span?: Span | null;
  }

  /** An array literal. */
  export interface InstructionValue_ArrayExpression {
    k: "ArrayExpression";
    /** Its entries. */
    elements?: ArrayElement[];
    /** Where it is in the source. */
    span?: Span | null;
  }

  /** A JSX element. */
  export interface InstructionValue_JsxExpression {
    k: "JsxExpression";
    /** Its tag. */
    tag: JsxTag;
    /** Its attributes. */
    props?: JsxAttribute[];
    /** What is between its tags; none where it has no closing tag. */
    children?: Place[] | null;
    /** Where it is in the source. */
    span?: Span | null;
  }

  /** A JSX fragment. */
  export interface InstructionValue_JsxFragment {
    k: "JsxFragment";
    /** What is between its tags. */
    children?: Place[];
    /** Where it is in the source. */
    span?: Span | null;
  }

  /** A regular expression. */
  export interface InstructionValue_RegExpLiteral {
    k: "RegExpLiteral";
    /** Its pattern. */
    pattern: string;
    /** Its flags. */
    flags: string;
    /** Where it is in the source. */
    span?: Span | null;
  }

  /** A property such as import.meta. */
  export interface InstructionValue_MetaProperty {
    k: "MetaProperty";
    /** The word before the point. */
    meta: string;
    /** The word after it. */
    property: string;
    /** Where it is in the source. */
    span?: Span | null;
  }

  /** A property with a name is read. */
  export interface InstructionValue_PropertyLoad {
    k: "PropertyLoad";
    /** The object. */
    object: Place;
    /** The property. */
    property: PropertyLiteral;
    /** Where it is in the source. */
    span?: Span | null;
  }

  /** A property with a name is deleted. */
  export interface InstructionValue_PropertyDelete {
    k: "PropertyDelete";
    /** The object. */
    object: Place;
    /** The property. */
    property: PropertyLiteral;
    /** Where it is in the source. */
    span?: Span | null;
  }

  /** A property with a name is written. */
  export interface InstructionValue_PropertyStore {
    k: "PropertyStore";
    /** The object. */
    object: Place;
    /** The property. */
    property: PropertyLiteral;
    /** The value. */
    value: Place;
    /** Where it is in the source. */
    span?: Span | null;
  }

  /** A property with a computed key is read. */
  export interface InstructionValue_ComputedLoad {
    k: "ComputedLoad";
    /** The object. */
    object: Place;
    /** The key. */
    property: Place;
    /** Where it is in the source. */
    span?: Span | null;
  }

  /** A property with a computed key is deleted. */
  export interface InstructionValue_ComputedDelete {
    k: "ComputedDelete";
    /** The object. */
    object: Place;
    /** The key. */
    property: Place;
    /** Where it is in the source. */
    span?: Span | null;
  }

  /** A property with a computed key is written. */
  export interface InstructionValue_ComputedStore {
    k: "ComputedStore";
    /** The object. */
    object: Place;
    /** The key. */
    property: Place;
    /** The value. */
    value: Place;
    /** Where it is in the source. */
    span?: Span | null;
  }

  /** The value of a name from outside the function. */
  export interface InstructionValue_LoadGlobal {
    k: "LoadGlobal";
    /** The name. */
    binding: NonLocalBinding;
    /** Where it is in the source. */
    span?: Span | null;
  }

  /** A name of the global scope gets a value. */
  export interface InstructionValue_StoreGlobal {
    k: "StoreGlobal";
    /** The name. */
    name: string;
    /** The value. */
    value: Place;
    /** Where it is in the source. */
    span?: Span | null;
  }

  /** A tagged template without expressions in it. */
  export interface InstructionValue_TaggedTemplateExpression {
    k: "TaggedTemplateExpression";
    /** The tag. */
    tag: Place;
    /** The template's text. */
    quasi: string;
    /** Where it is in the source. */
    span?: Span | null;
  }

  /** A template. */
  export interface InstructionValue_TemplateLiteral {
    k: "TemplateLiteral";
    /** The expressions in it. */
    subexprs?: Place[];
    /** The texts before, between and after them. */
    quasis?: string[];
    /** Where it is in the source. */
    span?: Span | null;
  }

  /** The iterator of a value, for a for-of. */
  export interface InstructionValue_GetIterator {
    k: "GetIterator";
    /** The value. */
    collection: Place;
    /** Where it is in the source. */
    span?: Span | null;
  }

  /** The next item of an iterator, for a for-of. */
  export interface InstructionValue_IteratorNext {
    k: "IteratorNext";
    /** The iterator. */
    iterator: Place;
    /** The value that it iterates over. */
    collection: Place;
    /** Where it is in the source. */
    span?: Span | null;
  }

  /** The next key of an object, for a for-in. */
  export interface InstructionValue_NextPropertyOf {
    k: "NextPropertyOf";
    /** The object. */
    value: Place;
    /** Where it is in the source. */
    span?: Span | null;
  }

  /** ++ or -- before a name. */
  export interface InstructionValue_PrefixUpdate {
    k: "PrefixUpdate";
    /** The name, as it is written. */
    lvalue: Place;
    /** The operator, as it is written. */
    operation: string;
    /** The name, as it is read. */
    value: Place;
    /** Where it is in the source. */
    span?: Span | null;
  }

  /** ++ or -- after a name. */
  export interface InstructionValue_PostfixUpdate {
    k: "PostfixUpdate";
    /** The name, as it is written. */
    lvalue: Place;
    /** The operator, as it is written. */
    operation: string;
    /** The name, as it is read. */
    value: Place;
    /** Where it is in the source. */
    span?: Span | null;
  }

  /** Debugger. */
  export interface InstructionValue_Debugger {
    k: "Debugger";
    /** Where it is in the source. */
    span?: Span | null;
  }

  /** The start of what useMemo or useCallback keeps in the source. */
  export interface InstructionValue_StartMemoize {
    k: "StartMemoize";
    /** The number that it shares with its end. */
    manual_memo_id: u32;
    /** The dependencies that the source lists. */
    deps?: Place[];
    /** Where it is in the source. */
    span?: Span | null;
  }

  /** The end of what useMemo or useCallback keeps in the source. */
  export interface InstructionValue_FinishMemoize {
    k: "FinishMemoize";
    /** The number that it shares with its start. */
    manual_memo_id: u32;
    /** What is kept. */
    decl: Place;
    /** Whether the source's memo was taken out. */
    pruned?: boolean;
    /** Where it is in the source. */
    span?: Span | null;
  }

  /**
   * What a jump is. Break: it leaves a statement, or the end of a list. Continue: it begins the next turn of a loop.
   * Try: it leaves the block of a try at its end.
   */
  export type GotoVariant = "Break" | "Continue" | "Try";

  /** A case of a switch. */
  export interface Case {
    /** The value that is compared; none for the default. */
    test?: Place | null;
    /** The block at which the case begins. */
    block: BlockId;
  }

  /** How a block ends. */
  export type Terminal =
    | Terminal_If
    | Terminal_Branch
    | Terminal_Logical
    | Terminal_Ternary
    | Terminal_Optional
    | Terminal_Sequence
    | Terminal_Throw
    | Terminal_Return
    | Terminal_Goto
    | Terminal_Switch
    | Terminal_DoWhile
    | Terminal_While
    | Terminal_For
    | Terminal_ForOf
    | Terminal_ForIn
    | Terminal_Label
    | Terminal_Unreachable
    | Terminal_MaybeThrow
    | Terminal_Scope
    | Terminal_PrunedScope
    | Terminal_Try;

  /** An if. */
  export interface Terminal_If {
    k: "If";
    /** The tested value. */
    test: Place;
    /** The block for a true value. */
    consequent: BlockId;
    /** The block for a false value; the fallthrough where there is no else. */
    alternate: BlockId;
    /** The block after the statement. */
    fallthrough: BlockId;
    /** The terminal's order of evaluation. */
    id: EvaluationOrder;
    /** Where it is in the source. */
    span?: Span | null;
  }

  /** The end of a test that is a value. */
  export interface Terminal_Branch {
    k: "Branch";
    /** The tested value. */
    test: Place;
    /** The block for a true value. */
    consequent: BlockId;
    /** The block for a false value. */
    alternate: BlockId;
    /** The terminal's order of evaluation. */
    id: EvaluationOrder;
    /** Where it is in the source. */
    span?: Span | null;
  }

  /** A value with &&, || or ??. */
  export interface Terminal_Logical {
    k: "Logical";
    /** The operator. */
    operator: LogicalOperator;
    /** The block at which the left side begins; it ends in a Branch. */
    test: BlockId;
    /** The block after the value. */
    fallthrough: BlockId;
    /** The terminal's order of evaluation. */
    id: EvaluationOrder;
    /** Where it is in the source. */
    span?: Span | null;
  }

  /** A conditional value. */
  export interface Terminal_Ternary {
    k: "Ternary";
    /** The block at which the test begins; it ends in a Branch. */
    test: BlockId;
    /** The block after the value. */
    fallthrough: BlockId;
    /** The terminal's order of evaluation. */
    id: EvaluationOrder;
    /** Where it is in the source. */
    span?: Span | null;
  }

  /** A step of an optional chain. */
  export interface Terminal_Optional {
    k: "Optional";
    /** Whether this step is written with ?.. */
    optional?: boolean;
    /** The block at which the object or the callee begins; it ends in a Branch. */
    test: BlockId;
    /** The block after the value. */
    fallthrough: BlockId;
    /** The terminal's order of evaluation. */
    id: EvaluationOrder;
    /** Where it is in the source. */
    span?: Span | null;
  }

  /** Values that are computed one after the other, as with commas. */
  export interface Terminal_Sequence {
    k: "Sequence";
    /** The block at which they begin. */
    block: BlockId;
    /** The block after the value. */
    fallthrough: BlockId;
    /** The terminal's order of evaluation. */
    id: EvaluationOrder;
    /** Where it is in the source. */
    span?: Span | null;
  }

  /** A throw. */
  export interface Terminal_Throw {
    k: "Throw";
    /** What is thrown. */
    value: Place;
    /** The terminal's order of evaluation. */
    id: EvaluationOrder;
    /** Where it is in the source. */
    span?: Span | null;
  }

  /** A return. */
  export interface Terminal_Return {
    k: "Return";
    /** What is returned. */
    value: Place;
    /** The terminal's order of evaluation. */
    id: EvaluationOrder;
    /** Where it is in the source. */
    span?: Span | null;
  }

  /** A jump. */
  export interface Terminal_Goto {
    k: "Goto";
    /** The block where it leads. */
    block: BlockId;
    /** What it is. */
    variant: GotoVariant;
    /** The terminal's order of evaluation. */
    id: EvaluationOrder;
    /** Where it is in the source. */
    span?: Span | null;
  }

  /** A switch. */
  export interface Terminal_Switch {
    k: "Switch";
    /** The compared value. */
    test: Place;
    /** The cases in their order; each falls into the next one. */
    cases?: Case[];
    /** The block after the statement. */
    fallthrough: BlockId;
    /** The terminal's order of evaluation. */
    id: EvaluationOrder;
    /** Where it is in the source. */
    span?: Span | null;
  }

  /** A do-while. */
  export interface Terminal_DoWhile {
    k: "DoWhile";
    /** The block at which the body begins. */
    loop_block: BlockId;
    /** The block at which the test begins; it ends in a Branch. */
    test: BlockId;
    /** The block after the statement. */
    fallthrough: BlockId;
    /** The terminal's order of evaluation. */
    id: EvaluationOrder;
    /** Where it is in the source. */
    span?: Span | null;
  }

  /** A while. */
  export interface Terminal_While {
    k: "While";
    /** The block at which the test begins; it ends in a Branch. */
    test: BlockId;
    /** The block at which the body begins. */
    loop_block: BlockId;
    /** The block after the statement. */
    fallthrough: BlockId;
    /** The terminal's order of evaluation. */
    id: EvaluationOrder;
    /** Where it is in the source. */
    span?: Span | null;
  }

  /** A for. */
  export interface Terminal_For {
    k: "For";
    /** The block at which the initializer begins. */
    init: BlockId;
    /** The block at which the test begins; it ends in a Branch. */
    test: BlockId;
    /** The block at which the update begins. */
    update?: BlockId | null;
    /** The block at which the body begins. */
    loop_block: BlockId;
    /** The block after the statement. */
    fallthrough: BlockId;
    /** The terminal's order of evaluation. */
    id: EvaluationOrder;
    /** Where it is in the source. */
    span?: Span | null;
  }

  /** A for-of. */
  export interface Terminal_ForOf {
    k: "ForOf";
    /** The block that gets the iterator. */
    init: BlockId;
    /** The block that gets and binds the next item; it ends in a Branch. */
    test: BlockId;
    /** The block at which the body begins. */
    loop_block: BlockId;
    /** The block after the statement. */
    fallthrough: BlockId;
    /** The terminal's order of evaluation. */
    id: EvaluationOrder;
    /** Where it is in the source. */
    span?: Span | null;
  }

  /** A for-in. */
  export interface Terminal_ForIn {
    k: "ForIn";
    /** The block that gets and binds the next key; it ends in a Branch. */
    init: BlockId;
    /** The block at which the body begins. */
    loop_block: BlockId;
    /** The block after the statement. */
    fallthrough: BlockId;
    /** The terminal's order of evaluation. */
    id: EvaluationOrder;
    /** Where it is in the source. */
    span?: Span | null;
  }

  /** A labeled statement. */
  export interface Terminal_Label {
    k: "Label";
    /** The block at which its statements begin. */
    block: BlockId;
    /** The block after the statement. */
    fallthrough: BlockId;
    /** The terminal's order of evaluation. */
    id: EvaluationOrder;
    /** Where it is in the source. */
    span?: Span | null;
  }

  /** Control never comes here. */
  export interface Terminal_Unreachable {
    k: "Unreachable";
    /** The terminal's order of evaluation. */
    id: EvaluationOrder;
    /** Where it is in the source. */
    span?: Span | null;
  }

  /** The row before may throw. */
  export interface Terminal_MaybeThrow {
    k: "MaybeThrow";
    /** The block that follows where it doesn't. */
    continuation: BlockId;
    /** The handler of the try around it; none outside of a try, or where the row can't throw. */
    handler?: BlockId | null;
    /** The terminal's order of evaluation. */
    id: EvaluationOrder;
    /** Where it is in the source. */
    span?: Span | null;
  }

  /** The rows and statements of a reactive scope. */
  export interface Terminal_Scope {
    k: "Scope";
    /** The block after the scope. */
    fallthrough: BlockId;
    /** The block at which the scope begins. */
    block: BlockId;
    /** The scope. */
    scope: ScopeId;
    /** The terminal's order of evaluation. */
    id: EvaluationOrder;
    /** Where it is in the source. */
    span?: Span | null;
  }

  /** The same for a scope that was given up before. */
  export interface Terminal_PrunedScope {
    k: "PrunedScope";
    /** The block after the scope. */
    fallthrough: BlockId;
    /** The block at which the scope begins. */
    block: BlockId;
    /** The scope. */
    scope: ScopeId;
    /** The terminal's order of evaluation. */
    id: EvaluationOrder;
    /** Where it is in the source. */
    span?: Span | null;
  }

  /** A try. */
  export interface Terminal_Try {
    k: "Try";
    /** The block at which the protected statements begin. */
    block: BlockId;
    /** The name that gets what is thrown. */
    handler_binding?: Place | null;
    /** The block at which the catch clause begins. */
    handler: BlockId;
    /** The block after the statement. */
    fallthrough: BlockId;
    /** The terminal's order of evaluation. */
    id: EvaluationOrder;
    /** Where it is in the source. */
    span?: Span | null;
  }

  /** The tables that the numbers of a graph name, each by its index. */
  export interface Environment {
    /** The identifiers. */
    identifiers?: Identifier[];
    /** The types of identifiers. */
    types?: HirType[];
    /** The reactive scopes. */
    scopes?: ReactiveScope[];
    /** The nested functions. */
    functions?: HirFunction[];
    /** The shapes of functions that a type names by Row. */
    shapes?: ShapeRow[];
    /** The options. */
    config: Config;
    /** The number of the next new block; every block's key is below it. */
    next_block: u32;
  }

  /** An identifier of the source, or one that a pass made. */
  export interface Identifier {
    /** The number that all identifiers of one declaration share. */
    declaration_id: DeclarationId;
    /** The name; none for a temporary. */
    name?: IdentifierName | null;
    /** The reactive scope that computes it. */
    scope?: ScopeId | null;
    /** Its type. */
    type_: TypeId;
    /** Where it is in the source. */
    span?: Span | null;
  }

  /** A name. */
  export type IdentifierName = IdentifierName_Named | IdentifierName_Promoted;

  /** Of the source. */
  export interface IdentifierName_Named {
    k: "Named";
    v: string;
  }

  /** Of a temporary, given by a pass. */
  export interface IdentifierName_Promoted {
    k: "Promoted";
    v: string;
  }

  /**
   * The type of an identifier, as far as the passes ask for it. Primitive: a value that is compared by what it is.
   * Other: nothing is known.
   */
  export type HirType = "Primitive" | "Other" | HirType_Object | HirType_Function;

  /** An object. */
  export interface HirType_Object {
    k: "Object";
    /** What is known of it. */
    shape?: Shape | null;
  }

  /** A function. */
  export interface HirType_Function {
    k: "Function";
    /** What is known of it. */
    shape?: Shape | null;
  }

  /**
   * What is known of an object or a function. Array: an array, which is new each time. Object: an object that is new
   * each time. Function: a function that is new each time. Jsx: an element, which is new each time. UseRef: a ref,
   * which is stable. SetState: the setter of useState, which is stable. SetActionState: the setter of useActionState,
   * which is stable. Dispatch: the dispatch of useReducer, which is stable. StartTransition: the function of
   * useTransition, which is stable. SetOptimistic: the setter of useOptimistic, which is stable.
   */
  export type Shape =
    | "Array"
    | "Object"
    | "Function"
    | "Jsx"
    | "UseRef"
    | "SetState"
    | "SetActionState"
    | "Dispatch"
    | "StartTransition"
    | "SetOptimistic"
    | Shape_Row;

  /** What the row of shapes with that index says. */
  export interface Shape_Row {
    k: "Row";
    v: u32;
  }

  /** The shape of a function. */
  export interface ShapeRow {
    /** Whether it is a hook. */
    hook?: boolean;
    /** Whether its calls never return an alias of an argument. */
    no_alias?: boolean;
  }

  /** The options that the passes go by. */
  export interface Config {
    /** Whether operands of cheap rows are recorded too, and JSX isn't memoized by itself. */
    enable_forest?: boolean;
    /** Whether operands of cheap rows are recorded too. */
    enable_preserve_existing_memoization_guarantees?: boolean;
  }

  /** A part of a function whose values may be kept between renders. */
  export interface ReactiveScope {
    /** The ids at which the scope is active. */
    range: MutableRange;
    /** The values whose changes make it recompute. */
    dependencies?: ReactiveScopeDependency[];
    /** The values that it declares. */
    declarations?: DeclarationEntry[];
    /** The names around it that it writes. */
    reassignments?: IdentifierId[];
    /** The early return that a pass gives it; none in a document. */
    early_return_value?: ReactiveScopeEarlyReturn | null;
    /** The scopes that were merged into it. */
    merged?: ScopeId[];
  }

  /** The ids from a start up to an end. */
  export interface MutableRange {
    /** The first id. */
    start: EvaluationOrder;
    /** One more than the last id. */
    end: EvaluationOrder;
  }

  /** A value whose changes make a scope recompute. */
  export interface ReactiveScopeDependency {
    /** The name that the path begins with. */
    identifier: IdentifierId;
    /** Whether it may change between renders. */
    reactive?: boolean;
    /** The properties that lead to the value. */
    path?: DependencyPathEntry[];
    /** Where it is in the source. */
    span?: Span | null;
  }

  /** A step from a value to one of its properties. */
  export interface DependencyPathEntry {
    /** The property. */
    property: PropertyLiteral;
    /** Whether the step is written with ?.. */
    optional?: boolean;
  }

  /** A declaration of a scope. */
  export interface DeclarationEntry {
    /** The number under which it is listed. */
    key: IdentifierId;
    /** The declaration. */
    value: ReactiveScopeDeclaration;
  }

  /** A value that a scope declares. */
  export interface ReactiveScopeDeclaration {
    /** The name. */
    identifier: IdentifierId;
    /** The scope in which it is declared. */
    scope: ScopeId;
  }

  /** The variable that stands for a return inside a scope. */
  export interface ReactiveScopeEarlyReturn {
    /** The variable. */
    value: IdentifierId;
    /** Where the first return is in the source. */
    span?: Span | null;
    /** The label that the scope's statements get. */
    label: BlockId;
  }
}

/** The printing form. */
export namespace Printed {
  /** Start and end in the source. */
  export type Span = [start: number, end: number];

  /** A use of an identifier; its number alone means effect Read, not reactive and no span. */
  export type Place = IdentifierId | [identifier: IdentifierId, effect: Effect, reactive: boolean, span?: Span];

  /** The number of a block in the function's table of blocks; not the number of a block of the graph. */
  export type BlockIndex = number;

  /** The number of a nested value in the function's table of values. */
  export type ValueIndex = number;

  /** A function's nested statements, the tables that their numbers name, and the fate of each scope. */
  export interface Answer {
    /** The tables as the passes leave them. */
    env: Environment;
    /** The scopes that have a scope block in the tree that the graph spells, by rising number. */
    fates: ScopeFate[];
    /** The function. */
    func: ReactiveFunction;
  }

  /** A scope with its fate. */
  export interface ScopeFate {
    /** What becomes of it. */
    fate: Fate;
    /** The scope. */
    scope: ScopeId;
  }

  /**
   * What becomes of a scope. Kept: its block is in the function. NotEscaping: none of its outputs is memoized; its
   * statements take the place of its block. Unused: it has no output of its own and no return of its own; its block is
   * a pruned one. AlwaysInvalidating: it depends on a value that is a new one in each render; its block is a pruned
   * one.
   */
  export type Fate = "Kept" | "NotEscaping" | "Unused" | "AlwaysInvalidating" | Fate_MergedInto | Fate_DissolvedInto;

  /** Its block became part of that scope's block, which came before it in its list. */
  export interface Fate_MergedInto {
    k: "MergedInto";
    v: ScopeId;
  }

  /** It recomputes only where that scope around it does; its statements take the place of its block. */
  export interface Fate_DissolvedInto {
    k: "DissolvedInto";
    v: ScopeId;
  }

  /** A function as nested statements, with a table of its blocks and one of its nested values. */
  export interface ReactiveFunction {
    /** Where the function is in the source. */
    span?: Span;
    /** The function's own name. */
    id?: string;
    /** A name for a function that has none, as of the variable that it is stored to. */
    name_hint?: string;
    /** The parameters, in their order. */
    params: ParamPattern[];
    /** Whether it is a generator. */
    generator: boolean;
    /** Whether it is async. */
    is_async: boolean;
    /** Block 0 is the body; from left to right, the text names the others as 1, 2, 3 ... */
    blocks: ReactiveBlock[];
    /** The nested values; from left to right, the text names them as 0, 1, 2 ... */
    values: NestedValue[];
    /** The directives at the start of the function, as "use memo". */
    directives: string[];
  }

  /** Statements that run one after the other. */
  export type ReactiveBlock = ReactiveStatement[];

  /** A statement. */
  export type ReactiveStatement =
    | ReactiveStatement_Instruction
    | ReactiveStatement_Terminal
    | ReactiveStatement_Scope
    | ReactiveStatement_PrunedScope;

  /** A row. */
  export interface ReactiveStatement_Instruction {
    k: "Instruction";
    v: ReactiveInstruction;
  }

  /** A statement that was a terminal of the graph. */
  export interface ReactiveStatement_Terminal {
    k: "Terminal";
    v: ReactiveTerminalStatement;
  }

  /** The statements of a scope that is kept. */
  export interface ReactiveStatement_Scope {
    k: "Scope";
    v: ReactiveScopeBlock;
  }

  /** The statements of a scope that isn't kept. */
  export interface ReactiveStatement_PrunedScope {
    k: "PrunedScope";
    v: ReactiveScopeBlock;
  }

  /** The statements of a reactive scope. */
  export interface ReactiveScopeBlock {
    /** The scope. */
    scope: ScopeId;
    /** Its statements. */
    instructions: BlockIndex;
  }

  /** A row, which computes a value for its target. */
  export interface ReactiveInstruction {
    /** The row's order of evaluation. */
    id: EvaluationOrder;
    /** The target, if it has one. */
    lvalue?: Place;
    /** What is computed. */
    value: ReactiveValue;
    /** Where the row is in the source. */
    span?: Span;
  }

  /** An instruction, or a nested value by its number. */
  export type ReactiveValue = InstructionValue | ReactiveValue_Nested;

  /** A value that is computed from others. */
  export interface ReactiveValue_Nested {
    k: "Nested";
    v: ValueIndex;
  }

  /** A value that is computed from others. */
  export type NestedValue =
    | NestedValue_LogicalExpression
    | NestedValue_ConditionalExpression
    | NestedValue_SequenceExpression
    | NestedValue_OptionalExpression;

  /** A value with &&, || or ??. */
  export interface NestedValue_LogicalExpression {
    k: "LogicalExpression";
    /** The operator. */
    operator: LogicalOperator;
    /** The left side. */
    left: ReactiveValue;
    /** The right side. */
    right: ReactiveValue;
  }

  /** A conditional value. */
  export interface NestedValue_ConditionalExpression {
    k: "ConditionalExpression";
    /** The test. */
    test: ReactiveValue;
    /** The value for a true test. */
    consequent: ReactiveValue;
    /** The value for a false test. */
    alternate: ReactiveValue;
  }

  /** Rows that run one after the other, and then a value. */
  export interface NestedValue_SequenceExpression {
    k: "SequenceExpression";
    /** The rows. */
    instructions: ReactiveInstruction[];
    /** The value's order of evaluation. */
    id: EvaluationOrder;
    /** The value. */
    value: ReactiveValue;
  }

  /** A step of an optional chain. */
  export interface NestedValue_OptionalExpression {
    k: "OptionalExpression";
    /** The test and the rest of the step, in a sequence. */
    value: ReactiveValue;
    /** Whether this step is written with ?.. */
    optional: boolean;
  }

  /** A statement that was a terminal of the graph, with its label. */
  export interface ReactiveTerminalStatement {
    /** The statement. */
    terminal: ReactiveTerminal;
    /** Its label, if a jump may name it. */
    label?: ReactiveLabel;
  }

  /** The label of a statement. */
  export interface ReactiveLabel {
    /** The block of the graph by whose number a jump names the statement. */
    id: BlockId;
    /** Whether no labeled jump names it. */
    implicit: boolean;
  }

  /**
   * How a jump finds the statement that it leaves, or whose next turn it begins. Implicit: control goes there without a
   * jump. Labeled: the jump names the statement's label. Unlabeled: the statement is the innermost loop.
   */
  export type ReactiveTerminalTargetKind = "Implicit" | "Labeled" | "Unlabeled";

  /** A case of a switch. */
  export interface ReactiveSwitchCase {
    /** The value that is compared; none for the default. */
    test?: Place;
    /** Its statements, if it has any. */
    block?: BlockIndex;
  }

  /** A statement that was a terminal of the graph. */
  export type ReactiveTerminal =
    | ReactiveTerminal_Break
    | ReactiveTerminal_Continue
    | ReactiveTerminal_Return
    | ReactiveTerminal_Throw
    | ReactiveTerminal_Switch
    | ReactiveTerminal_DoWhile
    | ReactiveTerminal_While
    | ReactiveTerminal_For
    | ReactiveTerminal_ForOf
    | ReactiveTerminal_ForIn
    | ReactiveTerminal_If
    | ReactiveTerminal_Label
    | ReactiveTerminal_Try;

  /** A break out of a statement. */
  export interface ReactiveTerminal_Break {
    k: "Break";
    /** The block of the graph that it leads to; the statement's label has the same number. */
    target: BlockId;
    /** How it is found. */
    target_kind: ReactiveTerminalTargetKind;
    /** The terminal's order of evaluation. */
    id: EvaluationOrder;
  }

  /** The next turn of a loop. */
  export interface ReactiveTerminal_Continue {
    k: "Continue";
    /** The number of the loop's label. */
    target: BlockId;
    /** How it is found. */
    target_kind: ReactiveTerminalTargetKind;
    /** The terminal's order of evaluation. */
    id: EvaluationOrder;
  }

  /** A return. */
  export interface ReactiveTerminal_Return {
    k: "Return";
    /** What is returned. */
    value: Place;
    /** The terminal's order of evaluation. */
    id: EvaluationOrder;
  }

  /** A throw. */
  export interface ReactiveTerminal_Throw {
    k: "Throw";
    /** What is thrown. */
    value: Place;
    /** The terminal's order of evaluation. */
    id: EvaluationOrder;
  }

  /** A switch. */
  export interface ReactiveTerminal_Switch {
    k: "Switch";
    /** The compared value. */
    test: Place;
    /** The cases in their order; each falls into the next one. */
    cases: ReactiveSwitchCase[];
    /** The terminal's order of evaluation. */
    id: EvaluationOrder;
  }

  /** A do-while. */
  export interface ReactiveTerminal_DoWhile {
    k: "DoWhile";
    /** The body. */
    loop_block: BlockIndex;
    /** The test. */
    test: ReactiveValue;
    /** The terminal's order of evaluation. */
    id: EvaluationOrder;
  }

  /** A while. */
  export interface ReactiveTerminal_While {
    k: "While";
    /** The test. */
    test: ReactiveValue;
    /** The body. */
    loop_block: BlockIndex;
    /** The terminal's order of evaluation. */
    id: EvaluationOrder;
  }

  /** A for. */
  export interface ReactiveTerminal_For {
    k: "For";
    /** The initializer. */
    init: ReactiveValue;
    /** The test. */
    test: ReactiveValue;
    /** The update. */
    update?: ReactiveValue;
    /** The body. */
    loop_block: BlockIndex;
    /** The terminal's order of evaluation. */
    id: EvaluationOrder;
  }

  /** A for-of. */
  export interface ReactiveTerminal_ForOf {
    k: "ForOf";
    /** The rows that get the iterator. */
    init: ReactiveValue;
    /** The rows that get and bind the next item. */
    test: ReactiveValue;
    /** The body. */
    loop_block: BlockIndex;
    /** Where it is in the source. */
    span?: Span;
    /** The terminal's order of evaluation. */
    id: EvaluationOrder;
  }

  /** A for-in. */
  export interface ReactiveTerminal_ForIn {
    k: "ForIn";
    /** The rows that get and bind the next key. */
    init: ReactiveValue;
    /** The body. */
    loop_block: BlockIndex;
    /** Where it is in the source. */
    span?: Span;
    /** The terminal's order of evaluation. */
    id: EvaluationOrder;
  }

  /** An if. */
  export interface ReactiveTerminal_If {
    k: "If";
    /** The tested value. */
    test: Place;
    /** The statements for a true value. */
    consequent: BlockIndex;
    /** The statements for a false value. */
    alternate?: BlockIndex;
    /** The terminal's order of evaluation. */
    id: EvaluationOrder;
  }

  /** A labeled statement. */
  export interface ReactiveTerminal_Label {
    k: "Label";
    /** Its statements. */
    block: BlockIndex;
    /** The terminal's order of evaluation. */
    id: EvaluationOrder;
  }

  /** A try. */
  export interface ReactiveTerminal_Try {
    k: "Try";
    /** The protected statements. */
    block: BlockIndex;
    /** The name that gets what is thrown. */
    handler_binding?: Place;
    /** The statements of the catch clause. */
    handler: BlockIndex;
    /** The terminal's order of evaluation. */
    id: EvaluationOrder;
  }

  /** The number of a block. */
  export type BlockId = number;

  /** The number of an identifier, an index in the table of identifiers. */
  export type IdentifierId = number;

  /** The number of a declaration; declarations share the range of the identifiers. */
  export type DeclarationId = number;

  /** The number of a type, an index in the table of types. */
  export type TypeId = number;

  /** The number of a reactive scope, an index in the table of scopes. */
  export type ScopeId = number;

  /** The number of a nested function, an index in the table of functions. */
  export type FunctionId = number;

  /** The number of a row, an index in its function's instructions. */
  export type InstructionId = number;

  /** The place of a row or a terminal in the order of evaluation; 0 means that it is unset. */
  export type EvaluationOrder = number;

  /** A whole number. */
  export type u32 = number;

  /** A function as a graph of basic blocks. */
  export interface HirFunction {
    /** Where the function is in the source. */
    span?: Span;
    /** The function's own name. */
    id?: string;
    /** A name for a function that has none, as of the variable that it is stored to. */
    name_hint?: string;
    /** The parameters, in their order. */
    params: ParamPattern[];
    /** Whether it is a generator. */
    generator: boolean;
    /** Whether it is async. */
    is_async: boolean;
    /** The places of the functions around it that it uses. */
    context: Place[];
    /** The graph. */
    body: Hir;
    /** The rows, which blocks list by their index here. */
    instructions: Instruction[];
    /** The directives at the start of the function, as "use memo". */
    directives: string[];
  }

  /** The blocks of a function. */
  export interface Hir {
    /** The block at which the function begins. */
    entry: BlockId;
    /** The blocks, in graph order; no two have the same key. */
    blocks: BasicBlock[];
  }

  /** Rows that run one after the other, and the terminal that ends them. */
  export interface BasicBlock {
    /** The key by which the block is found; it is the block's id where it is left out. */
    key?: BlockId;
    /** The block's number. */
    id: BlockId;
    /** The rows, as indexes in the function's instructions. */
    instructions: InstructionId[];
    /** How the block ends. */
    terminal: Terminal;
  }

  /** A row, which computes a value for its target. */
  export interface Instruction {
    /** The row's order of evaluation. */
    id: EvaluationOrder;
    /** The target. */
    lvalue: Place;
    /** What is computed. */
    value: InstructionValue;
    /** Where the row is in the source. */
    span?: Span;
  }

  /**
   * What a row does to the value of a place; from Capture on it may change the value. Unknown: not inferred yet.
   * Freeze: the value must not change from here on. Read: the value is read. Capture: the value is put into another
   * one. ConditionallyMutateIterator: an iterator is advanced, where the value is one. ConditionallyMutate: the value
   * is changed, where it may be. Mutate: the value is changed. Store: a name or a property is written.
   */
  export type Effect =
    | "Unknown"
    | "Freeze"
    | "Read"
    | "Capture"
    | "ConditionallyMutateIterator"
    | "ConditionallyMutate"
    | "Mutate"
    | "Store";

  /** A place after three dots. */
  export interface SpreadPattern {
    /** The place. */
    place: Place;
  }

  /** A parameter of a function. */
  export type ParamPattern = ParamPattern_Place | ParamPattern_Spread;

  /** One argument. */
  export interface ParamPattern_Place {
    k: "Place";
    v: Place;
  }

  /** All further arguments. */
  export interface ParamPattern_Spread {
    k: "Spread";
    v: SpreadPattern;
  }

  /** An argument of a call. */
  export type PlaceOrSpread = PlaceOrSpread_Place | PlaceOrSpread_Spread;

  /** One value. */
  export interface PlaceOrSpread_Place {
    k: "Place";
    v: Place;
  }

  /** All that a value iterates over. */
  export interface PlaceOrSpread_Spread {
    k: "Spread";
    v: SpreadPattern;
  }

  /** An entry of an array literal. Hole: nothing. */
  export type ArrayElement = "Hole" | ArrayElement_Place | ArrayElement_Spread;

  /** One value. */
  export interface ArrayElement_Place {
    k: "Place";
    v: Place;
  }

  /** All that a value iterates over. */
  export interface ArrayElement_Spread {
    k: "Spread";
    v: SpreadPattern;
  }

  /** An entry of an array pattern. Hole: an item that is passed over. */
  export type ArrayPatternElement = "Hole" | ArrayPatternElement_Place | ArrayPatternElement_Spread;

  /** One item. */
  export interface ArrayPatternElement_Place {
    k: "Place";
    v: Place;
  }

  /** All further items. */
  export interface ArrayPatternElement_Spread {
    k: "Spread";
    v: SpreadPattern;
  }

  /**
   * How a name is bound or written. Const: a const is bound. Let: a let or a var is bound. Reassign: a name that is
   * bound already is written. Catch: the name of a catch clause is bound. Function: a function declaration is bound.
   * HoistedConst: a const is announced before it is bound. HoistedLet: a let is announced before it is bound.
   * HoistedFunction: a function declaration is announced before it is bound.
   */
  export type InstructionKind =
    | "Const"
    | "Let"
    | "Reassign"
    | "Catch"
    | "Function"
    | "HoistedConst"
    | "HoistedLet"
    | "HoistedFunction";

  /** A place that is written. */
  export interface LValue {
    /** How it is written. */
    kind: InstructionKind;
    /** The place. */
    place: Place;
  }

  /** A pattern whose places are written. */
  export interface LValuePattern {
    /** How they are written. */
    kind: InstructionKind;
    /** The pattern. */
    pattern: Pattern;
  }

  /** The parts into which a value is taken apart. */
  export type Pattern = Pattern_Array | Pattern_Object;

  /** The items of an iterable. */
  export interface Pattern_Array {
    k: "Array";
    /** The places that get them. */
    items: ArrayPatternElement[];
  }

  /** The properties of an object. */
  export interface Pattern_Object {
    k: "Object";
    /** The places that get them. */
    properties: ObjectPropertyOrSpread[];
  }

  /** An entry of an object literal or of an object pattern. */
  export type ObjectPropertyOrSpread = ObjectPropertyOrSpread_Property | ObjectPropertyOrSpread_Spread;

  /** One property. */
  export interface ObjectPropertyOrSpread_Property {
    k: "Property";
    v: ObjectProperty;
  }

  /** All properties of a value, or the rest of them. */
  export interface ObjectPropertyOrSpread_Spread {
    k: "Spread";
    v: SpreadPattern;
  }

  /** A property with its place. */
  export interface ObjectProperty {
    /** The property's key. */
    key: ObjectPropertyKey;
    /** The place that it comes from, or goes to. */
    place: Place;
  }

  /** The key of a property. */
  export type ObjectPropertyKey =
    | ObjectPropertyKey_Identifier
    | ObjectPropertyKey_String
    | ObjectPropertyKey_Number
    | ObjectPropertyKey_Computed;

  /** An identifier. */
  export interface ObjectPropertyKey_Identifier {
    k: "Identifier";
    v: string;
  }

  /** A string. */
  export interface ObjectPropertyKey_String {
    k: "String";
    v: string;
  }

  /** A number, as it is written in the source. */
  export interface ObjectPropertyKey_Number {
    k: "Number";
    v: string;
  }

  /** A value that is computed. */
  export interface ObjectPropertyKey_Computed {
    k: "Computed";
    v: Place;
  }

  /** The name of a property that is read, written or deleted. */
  export type PropertyLiteral = PropertyLiteral_String | PropertyLiteral_Number;

  /** A name. */
  export interface PropertyLiteral_String {
    k: "String";
    v: string;
  }

  /** A number, as it is written in the source. */
  export interface PropertyLiteral_Number {
    k: "Number";
    v: string;
  }

  /** A literal of a primitive type. Null: null. Undefined: undefined. */
  export type PrimitiveValue =
    | "Null"
    | "Undefined"
    | PrimitiveValue_Boolean
    | PrimitiveValue_Number
    | PrimitiveValue_String;

  /** True or false. */
  export interface PrimitiveValue_Boolean {
    k: "Boolean";
    v: boolean;
  }

  /** A number, as it is written in the source. */
  export interface PrimitiveValue_Number {
    k: "Number";
    v: string;
  }

  /** A string. */
  export interface PrimitiveValue_String {
    k: "String";
    v: string;
  }

  /** A name from outside the function. */
  export type NonLocalBinding = NonLocalBinding_Global | NonLocalBinding_Module;

  /** A name of the global scope. */
  export interface NonLocalBinding_Global {
    k: "Global";
    /** The name. */
    name: string;
  }

  /** A name that is imported, or that the module declares. */
  export interface NonLocalBinding_Module {
    k: "Module";
    /** The name. */
    name: string;
    /** The module that it is imported from. */
    module: string;
  }

  /** The tag of a JSX element. */
  export type JsxTag = JsxTag_Place | JsxTag_Builtin;

  /** A component. */
  export interface JsxTag_Place {
    k: "Place";
    v: Place;
  }

  /** An element of the platform, by its name. */
  export interface JsxTag_Builtin {
    k: "Builtin";
    v: string;
  }

  /** An attribute of a JSX element. */
  export type JsxAttribute = JsxAttribute_Attribute | JsxAttribute_SpreadAttribute;

  /** One attribute. */
  export interface JsxAttribute_Attribute {
    k: "Attribute";
    /** Its name. */
    name: string;
    /** Its value. */
    place: Place;
  }

  /** All properties of a value. */
  export interface JsxAttribute_SpreadAttribute {
    k: "SpreadAttribute";
    /** The value. */
    argument: Place;
  }

  /** An operator that may skip its right side. And: &&. Or: ||. Coalesce: ??. */
  export type LogicalOperator = "And" | "Or" | "Coalesce";

  /** A nested function. */
  export interface LoweredFunction {
    /** Its number in the table of functions. */
    func: FunctionId;
  }

  /** What a row computes; the 42 kinds. */
  export type InstructionValue =
    | InstructionValue_LoadLocal
    | InstructionValue_LoadContext
    | InstructionValue_DeclareLocal
    | InstructionValue_DeclareContext
    | InstructionValue_StoreLocal
    | InstructionValue_StoreContext
    | InstructionValue_Destructure
    | InstructionValue_Primitive
    | InstructionValue_JSXText
    | InstructionValue_BinaryExpression
    | InstructionValue_UnaryExpression
    | InstructionValue_TypeCastExpression
    | InstructionValue_Await
    | InstructionValue_NewExpression
    | InstructionValue_CallExpression
    | InstructionValue_MethodCall
    | InstructionValue_ObjectExpression
    | InstructionValue_ObjectMethod
    | InstructionValue_FunctionExpression
    | InstructionValue_ArrayExpression
    | InstructionValue_JsxExpression
    | InstructionValue_JsxFragment
    | InstructionValue_RegExpLiteral
    | InstructionValue_MetaProperty
    | InstructionValue_PropertyLoad
    | InstructionValue_PropertyDelete
    | InstructionValue_PropertyStore
    | InstructionValue_ComputedLoad
    | InstructionValue_ComputedDelete
    | InstructionValue_ComputedStore
    | InstructionValue_LoadGlobal
    | InstructionValue_StoreGlobal
    | InstructionValue_TaggedTemplateExpression
    | InstructionValue_TemplateLiteral
    | InstructionValue_GetIterator
    | InstructionValue_IteratorNext
    | InstructionValue_NextPropertyOf
    | InstructionValue_PrefixUpdate
    | InstructionValue_PostfixUpdate
    | InstructionValue_Debugger
    | InstructionValue_StartMemoize
    | InstructionValue_FinishMemoize;

  /** The value of a local name. */
  export interface InstructionValue_LoadLocal {
    k: "LoadLocal";
    /** The name. */
    place: Place;
    /** Where it is in the source. */
    span?: Span;
  }

  /** The value of a name that nested functions share. */
  export interface InstructionValue_LoadContext {
    k: "LoadContext";
    /** The name. */
    place: Place;
    /** Where it is in the source. */
    span?: Span;
  }

  /** A local name is declared without a value. */
  export interface InstructionValue_DeclareLocal {
    k: "DeclareLocal";
    /** The name. */
    lvalue: LValue;
    /** Where it is in the source. */
    span?: Span;
  }

  /** A name that nested functions share is declared without a value. */
  export interface InstructionValue_DeclareContext {
    k: "DeclareContext";
    /** The name. */
    lvalue: LValue;
    /** Where it is in the source. */
    span?: Span;
  }

  /** A local name gets a value. */
  export interface InstructionValue_StoreLocal {
    k: "StoreLocal";
    /** The name. */
    lvalue: LValue;
    /** The value. */
    value: Place;
    /** Where it is in the source. */
    span?: Span;
  }

  /** A name that nested functions share gets a value. */
  export interface InstructionValue_StoreContext {
    k: "StoreContext";
    /** The name. */
    lvalue: LValue;
    /** The value. */
    value: Place;
    /** Where it is in the source. */
    span?: Span;
  }

  /** A value is taken apart. */
  export interface InstructionValue_Destructure {
    k: "Destructure";
    /** The places that get its parts. */
    lvalue: LValuePattern;
    /** The value. */
    value: Place;
    /** Where it is in the source. */
    span?: Span;
  }

  /** A literal. */
  export interface InstructionValue_Primitive {
    k: "Primitive";
    /** The literal. */
    value: PrimitiveValue;
    /** Where it is in the source. */
    span?: Span;
  }

  /** Text between JSX tags. */
  export interface InstructionValue_JSXText {
    k: "JSXText";
    /** The text. */
    value: string;
    /** Where it is in the source. */
    span?: Span;
  }

  /** A binary operator but &&, || and ??. */
  export interface InstructionValue_BinaryExpression {
    k: "BinaryExpression";
    /** The operator, as it is written. */
    operator: string;
    /** The left side. */
    left: Place;
    /** The right side. */
    right: Place;
    /** Where it is in the source. */
    span?: Span;
  }

  /** A unary operator but delete. */
  export interface InstructionValue_UnaryExpression {
    k: "UnaryExpression";
    /** The operator, as it is written. */
    operator: string;
    /** The operand. */
    value: Place;
    /** Where it is in the source. */
    span?: Span;
  }

  /** A value with the type that the source gives it. */
  export interface InstructionValue_TypeCastExpression {
    k: "TypeCastExpression";
    /** The value. */
    value: Place;
    /** The type, as it is written. */
    annotation: string;
    /** Where it is in the source. */
    span?: Span;
  }

  /** Await. */
  export interface InstructionValue_Await {
    k: "Await";
    /** What is awaited. */
    value: Place;
    /** Where it is in the source. */
    span?: Span;
  }

  /** New. */
  export interface InstructionValue_NewExpression {
    k: "NewExpression";
    /** The constructor. */
    callee: Place;
    /** The arguments. */
    args: PlaceOrSpread[];
    /** Where it is in the source. */
    span?: Span;
  }

  /** A call. */
  export interface InstructionValue_CallExpression {
    k: "CallExpression";
    /** The function. */
    callee: Place;
    /** The arguments. */
    args: PlaceOrSpread[];
    /** Where it is in the source. */
    span?: Span;
  }

  /** A call of a property of a value. */
  export interface InstructionValue_MethodCall {
    k: "MethodCall";
    /** The value. */
    receiver: Place;
    /** The property that is called, as an earlier row loaded it. */
    property: Place;
    /** The arguments. */
    args: PlaceOrSpread[];
    /** Where it is in the source. */
    span?: Span;
  }

  /** An object literal. */
  export interface InstructionValue_ObjectExpression {
    k: "ObjectExpression";
    /** Its entries. */
    properties: ObjectPropertyOrSpread[];
    /** Where it is in the source. */
    span?: Span;
  }

  /** A method of an object literal. */
  export interface InstructionValue_ObjectMethod {
    k: "ObjectMethod";
    /** The function. */
    lowered_func: LoweredFunction;
    /** Where it is in the source. */
    span?: Span;
  }

  /** A function expression, an arrow function or a function declaration. */
  export interface InstructionValue_FunctionExpression {
    k: "FunctionExpression";
    /** The function's name. */
    name?: string;
    /** The function. */
    lowered_func: LoweredFunction;
    /** Where it is in the source. */
    span?: Span;
  }

  /** An array literal. */
  export interface InstructionValue_ArrayExpression {
    k: "ArrayExpression";
    /** Its entries. */
    elements: ArrayElement[];
    /** Where it is in the source. */
    span?: Span;
  }

  /** A JSX element. */
  export interface InstructionValue_JsxExpression {
    k: "JsxExpression";
    /** Its tag. */
    tag: JsxTag;
    /** Its attributes. */
    props: JsxAttribute[];
    /** What is between its tags; none where it has no closing tag. */
    children?: Place[];
    /** Where it is in the source. */
    span?: Span;
  }

  /** A JSX fragment. */
  export interface InstructionValue_JsxFragment {
    k: "JsxFragment";
    /** What is between its tags. */
    children: Place[];
    /** Where it is in the source. */
    span?: Span;
  }

  /** A regular expression. */
  export interface InstructionValue_RegExpLiteral {
    k: "RegExpLiteral";
    /** Its pattern. */
    pattern: string;
    /** Its flags. */
    flags: string;
    /** Where it is in the source. */
    span?: Span;
  }

  /** A property such as import.meta. */
  export interface InstructionValue_MetaProperty {
    k: "MetaProperty";
    /** The word before the point. */
    meta: string;
    /** The word after it. */
    property: string;
    /** Where it is in the source. */
    span?: Span;
  }

  /** A property with a name is read. */
  export interface InstructionValue_PropertyLoad {
    k: "PropertyLoad";
    /** The object. */
    object: Place;
    /** The property. */
    property: PropertyLiteral;
    /** Where it is in the source. */
    span?: Span;
  }

  /** A property with a name is deleted. */
  export interface InstructionValue_PropertyDelete {
    k: "PropertyDelete";
    /** The object. */
    object: Place;
    /** The property. */
    property: PropertyLiteral;
    /** Where it is in the source. */
    span?: Span;
  }

  /** A property with a name is written. */
  export interface InstructionValue_PropertyStore {
    k: "PropertyStore";
    /** The object. */
    object: Place;
    /** The property. */
    property: PropertyLiteral;
    /** The value. */
    value: Place;
    /** Where it is in the source. */
    span?: Span;
  }

  /** A property with a computed key is read. */
  export interface InstructionValue_ComputedLoad {
    k: "ComputedLoad";
    /** The object. */
    object: Place;
    /** The key. */
    property: Place;
    /** Where it is in the source. */
    span?: Span;
  }

  /** A property with a computed key is deleted. */
  export interface InstructionValue_ComputedDelete {
    k: "ComputedDelete";
    /** The object. */
    object: Place;
    /** The key. */
    property: Place;
    /** Where it is in the source. */
    span?: Span;
  }

  /** A property with a computed key is written. */
  export interface InstructionValue_ComputedStore {
    k: "ComputedStore";
    /** The object. */
    object: Place;
    /** The key. */
    property: Place;
    /** The value. */
    value: Place;
    /** Where it is in the source. */
    span?: Span;
  }

  /** The value of a name from outside the function. */
  export interface InstructionValue_LoadGlobal {
    k: "LoadGlobal";
    /** The name. */
    binding: NonLocalBinding;
    /** Where it is in the source. */
    span?: Span;
  }

  /** A name of the global scope gets a value. */
  export interface InstructionValue_StoreGlobal {
    k: "StoreGlobal";
    /** The name. */
    name: string;
    /** The value. */
    value: Place;
    /** Where it is in the source. */
    span?: Span;
  }

  /** A tagged template without expressions in it. */
  export interface InstructionValue_TaggedTemplateExpression {
    k: "TaggedTemplateExpression";
    /** The tag. */
    tag: Place;
    /** The template's text. */
    quasi: string;
    /** Where it is in the source. */
    span?: Span;
  }

  /** A template. */
  export interface InstructionValue_TemplateLiteral {
    k: "TemplateLiteral";
    /** The expressions in it. */
    subexprs: Place[];
    /** The texts before, between and after them. */
    quasis: string[];
    /** Where it is in the source. */
    span?: Span;
  }

  /** The iterator of a value, for a for-of. */
  export interface InstructionValue_GetIterator {
    k: "GetIterator";
    /** The value. */
    collection: Place;
    /** Where it is in the source. */
    span?: Span;
  }

  /** The next item of an iterator, for a for-of. */
  export interface InstructionValue_IteratorNext {
    k: "IteratorNext";
    /** The iterator. */
    iterator: Place;
    /** The value that it iterates over. */
    collection: Place;
    /** Where it is in the source. */
    span?: Span;
  }

  /** The next key of an object, for a for-in. */
  export interface InstructionValue_NextPropertyOf {
    k: "NextPropertyOf";
    /** The object. */
    value: Place;
    /** Where it is in the source. */
    span?: Span;
  }

  /** ++ or -- before a name. */
  export interface InstructionValue_PrefixUpdate {
    k: "PrefixUpdate";
    /** The name, as it is written. */
    lvalue: Place;
    /** The operator, as it is written. */
    operation: string;
    /** The name, as it is read. */
    value: Place;
    /** Where it is in the source. */
    span?: Span;
  }

  /** ++ or -- after a name. */
  export interface InstructionValue_PostfixUpdate {
    k: "PostfixUpdate";
    /** The name, as it is written. */
    lvalue: Place;
    /** The operator, as it is written. */
    operation: string;
    /** The name, as it is read. */
    value: Place;
    /** Where it is in the source. */
    span?: Span;
  }

  /** Debugger. */
  export interface InstructionValue_Debugger {
    k: "Debugger";
    /** Where it is in the source. */
    span?: Span;
  }

  /** The start of what useMemo or useCallback keeps in the source. */
  export interface InstructionValue_StartMemoize {
    k: "StartMemoize";
    /** The number that it shares with its end. */
    manual_memo_id: u32;
    /** The dependencies that the source lists. */
    deps: Place[];
    /** Where it is in the source. */
    span?: Span;
  }

  /** The end of what useMemo or useCallback keeps in the source. */
  export interface InstructionValue_FinishMemoize {
    k: "FinishMemoize";
    /** The number that it shares with its start. */
    manual_memo_id: u32;
    /** What is kept. */
    decl: Place;
    /** Whether the source's memo was taken out. */
    pruned: boolean;
    /** Where it is in the source. */
    span?: Span;
  }

  /**
   * What a jump is. Break: it leaves a statement, or the end of a list. Continue: it begins the next turn of a loop.
   * Try: it leaves the block of a try at its end.
   */
  export type GotoVariant = "Break" | "Continue" | "Try";

  /** A case of a switch. */
  export interface Case {
    /** The value that is compared; none for the default. */
    test?: Place;
    /** The block at which the case begins. */
    block: BlockId;
  }

  /** How a block ends. */
  export type Terminal =
    | Terminal_If
    | Terminal_Branch
    | Terminal_Logical
    | Terminal_Ternary
    | Terminal_Optional
    | Terminal_Sequence
    | Terminal_Throw
    | Terminal_Return
    | Terminal_Goto
    | Terminal_Switch
    | Terminal_DoWhile
    | Terminal_While
    | Terminal_For
    | Terminal_ForOf
    | Terminal_ForIn
    | Terminal_Label
    | Terminal_Unreachable
    | Terminal_MaybeThrow
    | Terminal_Scope
    | Terminal_PrunedScope
    | Terminal_Try;

  /** An if. */
  export interface Terminal_If {
    k: "If";
    /** The tested value. */
    test: Place;
    /** The block for a true value. */
    consequent: BlockId;
    /** The block for a false value; the fallthrough where there is no else. */
    alternate: BlockId;
    /** The block after the statement. */
    fallthrough: BlockId;
    /** The terminal's order of evaluation. */
    id: EvaluationOrder;
    /** Where it is in the source. */
    span?: Span;
  }

  /** The end of a test that is a value. */
  export interface Terminal_Branch {
    k: "Branch";
    /** The tested value. */
    test: Place;
    /** The block for a true value. */
    consequent: BlockId;
    /** The block for a false value. */
    alternate: BlockId;
    /** The terminal's order of evaluation. */
    id: EvaluationOrder;
    /** Where it is in the source. */
    span?: Span;
  }

  /** A value with &&, || or ??. */
  export interface Terminal_Logical {
    k: "Logical";
    /** The operator. */
    operator: LogicalOperator;
    /** The block at which the left side begins; it ends in a Branch. */
    test: BlockId;
    /** The block after the value. */
    fallthrough: BlockId;
    /** The terminal's order of evaluation. */
    id: EvaluationOrder;
    /** Where it is in the source. */
    span?: Span;
  }

  /** A conditional value. */
  export interface Terminal_Ternary {
    k: "Ternary";
    /** The block at which the test begins; it ends in a Branch. */
    test: BlockId;
    /** The block after the value. */
    fallthrough: BlockId;
    /** The terminal's order of evaluation. */
    id: EvaluationOrder;
    /** Where it is in the source. */
    span?: Span;
  }

  /** A step of an optional chain. */
  export interface Terminal_Optional {
    k: "Optional";
    /** Whether this step is written with ?.. */
    optional: boolean;
    /** The block at which the object or the callee begins; it ends in a Branch. */
    test: BlockId;
    /** The block after the value. */
    fallthrough: BlockId;
    /** The terminal's order of evaluation. */
    id: EvaluationOrder;
    /** Where it is in the source. */
    span?: Span;
  }

  /** Values that are computed one after the other, as with commas. */
  export interface Terminal_Sequence {
    k: "Sequence";
    /** The block at which they begin. */
    block: BlockId;
    /** The block after the value. */
    fallthrough: BlockId;
    /** The terminal's order of evaluation. */
    id: EvaluationOrder;
    /** Where it is in the source. */
    span?: Span;
  }

  /** A throw. */
  export interface Terminal_Throw {
    k: "Throw";
    /** What is thrown. */
    value: Place;
    /** The terminal's order of evaluation. */
    id: EvaluationOrder;
    /** Where it is in the source. */
    span?: Span;
  }

  /** A return. */
  export interface Terminal_Return {
    k: "Return";
    /** What is returned. */
    value: Place;
    /** The terminal's order of evaluation. */
    id: EvaluationOrder;
    /** Where it is in the source. */
    span?: Span;
  }

  /** A jump. */
  export interface Terminal_Goto {
    k: "Goto";
    /** The block where it leads. */
    block: BlockId;
    /** What it is. */
    variant: GotoVariant;
    /** The terminal's order of evaluation. */
    id: EvaluationOrder;
    /** Where it is in the source. */
    span?: Span;
  }

  /** A switch. */
  export interface Terminal_Switch {
    k: "Switch";
    /** The compared value. */
    test: Place;
    /** The cases in their order; each falls into the next one. */
    cases: Case[];
    /** The block after the statement. */
    fallthrough: BlockId;
    /** The terminal's order of evaluation. */
    id: EvaluationOrder;
    /** Where it is in the source. */
    span?: Span;
  }

  /** A do-while. */
  export interface Terminal_DoWhile {
    k: "DoWhile";
    /** The block at which the body begins. */
    loop_block: BlockId;
    /** The block at which the test begins; it ends in a Branch. */
    test: BlockId;
    /** The block after the statement. */
    fallthrough: BlockId;
    /** The terminal's order of evaluation. */
    id: EvaluationOrder;
    /** Where it is in the source. */
    span?: Span;
  }

  /** A while. */
  export interface Terminal_While {
    k: "While";
    /** The block at which the test begins; it ends in a Branch. */
    test: BlockId;
    /** The block at which the body begins. */
    loop_block: BlockId;
    /** The block after the statement. */
    fallthrough: BlockId;
    /** The terminal's order of evaluation. */
    id: EvaluationOrder;
    /** Where it is in the source. */
    span?: Span;
  }

  /** A for. */
  export interface Terminal_For {
    k: "For";
    /** The block at which the initializer begins. */
    init: BlockId;
    /** The block at which the test begins; it ends in a Branch. */
    test: BlockId;
    /** The block at which the update begins. */
    update?: BlockId;
    /** The block at which the body begins. */
    loop_block: BlockId;
    /** The block after the statement. */
    fallthrough: BlockId;
    /** The terminal's order of evaluation. */
    id: EvaluationOrder;
    /** Where it is in the source. */
    span?: Span;
  }

  /** A for-of. */
  export interface Terminal_ForOf {
    k: "ForOf";
    /** The block that gets the iterator. */
    init: BlockId;
    /** The block that gets and binds the next item; it ends in a Branch. */
    test: BlockId;
    /** The block at which the body begins. */
    loop_block: BlockId;
    /** The block after the statement. */
    fallthrough: BlockId;
    /** The terminal's order of evaluation. */
    id: EvaluationOrder;
    /** Where it is in the source. */
    span?: Span;
  }

  /** A for-in. */
  export interface Terminal_ForIn {
    k: "ForIn";
    /** The block that gets and binds the next key; it ends in a Branch. */
    init: BlockId;
    /** The block at which the body begins. */
    loop_block: BlockId;
    /** The block after the statement. */
    fallthrough: BlockId;
    /** The terminal's order of evaluation. */
    id: EvaluationOrder;
    /** Where it is in the source. */
    span?: Span;
  }

  /** A labeled statement. */
  export interface Terminal_Label {
    k: "Label";
    /** The block at which its statements begin. */
    block: BlockId;
    /** The block after the statement. */
    fallthrough: BlockId;
    /** The terminal's order of evaluation. */
    id: EvaluationOrder;
    /** Where it is in the source. */
    span?: Span;
  }

  /** Control never comes here. */
  export interface Terminal_Unreachable {
    k: "Unreachable";
    /** The terminal's order of evaluation. */
    id: EvaluationOrder;
    /** Where it is in the source. */
    span?: Span;
  }

  /** The row before may throw. */
  export interface Terminal_MaybeThrow {
    k: "MaybeThrow";
    /** The block that follows where it doesn't. */
    continuation: BlockId;
    /** The handler of the try around it; none outside of a try, or where the row can't throw. */
    handler?: BlockId;
    /** The terminal's order of evaluation. */
    id: EvaluationOrder;
    /** Where it is in the source. */
    span?: Span;
  }

  /** The rows and statements of a reactive scope. */
  export interface Terminal_Scope {
    k: "Scope";
    /** The block after the scope. */
    fallthrough: BlockId;
    /** The block at which the scope begins. */
    block: BlockId;
    /** The scope. */
    scope: ScopeId;
    /** The terminal's order of evaluation. */
    id: EvaluationOrder;
    /** Where it is in the source. */
    span?: Span;
  }

  /** The same for a scope that was given up before. */
  export interface Terminal_PrunedScope {
    k: "PrunedScope";
    /** The block after the scope. */
    fallthrough: BlockId;
    /** The block at which the scope begins. */
    block: BlockId;
    /** The scope. */
    scope: ScopeId;
    /** The terminal's order of evaluation. */
    id: EvaluationOrder;
    /** Where it is in the source. */
    span?: Span;
  }

  /** A try. */
  export interface Terminal_Try {
    k: "Try";
    /** The block at which the protected statements begin. */
    block: BlockId;
    /** The name that gets what is thrown. */
    handler_binding?: Place;
    /** The block at which the catch clause begins. */
    handler: BlockId;
    /** The block after the statement. */
    fallthrough: BlockId;
    /** The terminal's order of evaluation. */
    id: EvaluationOrder;
    /** Where it is in the source. */
    span?: Span;
  }

  /** The tables that the numbers of a graph name, each by its index. */
  export interface Environment {
    /** The identifiers. */
    identifiers: Identifier[];
    /** The types of identifiers. */
    types: HirType[];
    /** The reactive scopes. */
    scopes: ReactiveScope[];
    /** The nested functions. */
    functions: HirFunction[];
    /** The shapes of functions that a type names by Row. */
    shapes: ShapeRow[];
    /** The options. */
    config: Config;
    /** The number of the next new block; every block's key is below it. */
    next_block: u32;
  }

  /** An identifier of the source, or one that a pass made. */
  export interface Identifier {
    /** The number that all identifiers of one declaration share. */
    declaration_id: DeclarationId;
    /** The name; none for a temporary. */
    name?: IdentifierName;
    /** The reactive scope that computes it. */
    scope?: ScopeId;
    /** Its type. */
    type_: TypeId;
    /** Where it is in the source. */
    span?: Span;
  }

  /** A name. */
  export type IdentifierName = IdentifierName_Named | IdentifierName_Promoted;

  /** Of the source. */
  export interface IdentifierName_Named {
    k: "Named";
    v: string;
  }

  /** Of a temporary, given by a pass. */
  export interface IdentifierName_Promoted {
    k: "Promoted";
    v: string;
  }

  /**
   * The type of an identifier, as far as the passes ask for it. Primitive: a value that is compared by what it is.
   * Other: nothing is known.
   */
  export type HirType = "Primitive" | "Other" | HirType_Object | HirType_Function;

  /** An object. */
  export interface HirType_Object {
    k: "Object";
    /** What is known of it. */
    shape?: Shape;
  }

  /** A function. */
  export interface HirType_Function {
    k: "Function";
    /** What is known of it. */
    shape?: Shape;
  }

  /**
   * What is known of an object or a function. Array: an array, which is new each time. Object: an object that is new
   * each time. Function: a function that is new each time. Jsx: an element, which is new each time. UseRef: a ref,
   * which is stable. SetState: the setter of useState, which is stable. SetActionState: the setter of useActionState,
   * which is stable. Dispatch: the dispatch of useReducer, which is stable. StartTransition: the function of
   * useTransition, which is stable. SetOptimistic: the setter of useOptimistic, which is stable.
   */
  export type Shape =
    | "Array"
    | "Object"
    | "Function"
    | "Jsx"
    | "UseRef"
    | "SetState"
    | "SetActionState"
    | "Dispatch"
    | "StartTransition"
    | "SetOptimistic"
    | Shape_Row;

  /** What the row of shapes with that index says. */
  export interface Shape_Row {
    k: "Row";
    v: u32;
  }

  /** The shape of a function. */
  export interface ShapeRow {
    /** Whether it is a hook. */
    hook: boolean;
    /** Whether its calls never return an alias of an argument. */
    no_alias: boolean;
  }

  /** The options that the passes go by. */
  export interface Config {
    /** Whether operands of cheap rows are recorded too, and JSX isn't memoized by itself. */
    enable_forest: boolean;
    /** Whether operands of cheap rows are recorded too. */
    enable_preserve_existing_memoization_guarantees: boolean;
  }

  /** A part of a function whose values may be kept between renders. */
  export interface ReactiveScope {
    /** The ids at which the scope is active. */
    range: MutableRange;
    /** The values whose changes make it recompute. */
    dependencies: ReactiveScopeDependency[];
    /** The values that it declares. */
    declarations: DeclarationEntry[];
    /** The names around it that it writes. */
    reassignments: IdentifierId[];
    /** The early return that a pass gives it; none in a document. */
    early_return_value?: ReactiveScopeEarlyReturn;
    /** The scopes that were merged into it. */
    merged: ScopeId[];
  }

  /** The ids from a start up to an end. */
  export interface MutableRange {
    /** The first id. */
    start: EvaluationOrder;
    /** One more than the last id. */
    end: EvaluationOrder;
  }

  /** A value whose changes make a scope recompute. */
  export interface ReactiveScopeDependency {
    /** The name that the path begins with. */
    identifier: IdentifierId;
    /** Whether it may change between renders. */
    reactive: boolean;
    /** The properties that lead to the value. */
    path: DependencyPathEntry[];
    /** Where it is in the source. */
    span?: Span;
  }

  /** A step from a value to one of its properties. */
  export interface DependencyPathEntry {
    /** The property. */
    property: PropertyLiteral;
    /** Whether the step is written with ?.. */
    optional: boolean;
  }

  /** A declaration of a scope. */
  export interface DeclarationEntry {
    /** The number under which it is listed. */
    key: IdentifierId;
    /** The declaration. */
    value: ReactiveScopeDeclaration;
  }

  /** A value that a scope declares. */
  export interface ReactiveScopeDeclaration {
    /** The name. */
    identifier: IdentifierId;
    /** The scope in which it is declared. */
    scope: ScopeId;
  }

  /** The variable that stands for a return inside a scope. */
  export interface ReactiveScopeEarlyReturn {
    /** The variable. */
    value: IdentifierId;
    /** Where the first return is in the source. */
    span?: Span;
    /** The label that the scope's statements get. */
    label: BlockId;
  }
}
