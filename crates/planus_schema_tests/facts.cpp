// Prints what flatc settled of a schema, a fact a line: `g++ -o facts facts.cpp`, then
// `flatc -b --schema FILE.fbs` and `./facts FILE.bfbs`.

#include <flatbuffers/reflection.h>

#include <cstdio>
#include <fstream>
#include <iterator>
#include <string>

using namespace reflection;

static const char *const scalars[] = {
    "none", "utype", "bool", "byte", "ubyte", "short", "ushort", "int",
    "uint", "long", "ulong", "float", "double", "string"};

// The name of a type, whose base is given apart since it may be that of a vector's or array's items.
static std::string name_of(const Schema *schema, const Type *type, BaseType base) {
  if (base == Vector) return "[" + name_of(schema, type, type->element()) + "]";
  if (base == Array)
    return "[" + name_of(schema, type, type->element()) + ":" +
           std::to_string(type->fixed_length()) + "]";
  if (base == UType) return "ubyte";
  if (base == Obj) return schema->objects()->Get(type->index())->name()->str();
  if (type->index() >= 0) return schema->enums()->Get(type->index())->name()->str();
  return scalars[base];
}

static void say(const std::string &of, const char *word, const std::string &value) {
  printf("%s %s %s\n", of.c_str(), word, value.c_str());
}

static void say_field(const Schema *schema, const std::string &of, bool in_struct,
                      const Field *field) {
  say(of, in_struct ? "at" : "slot",
      std::to_string(in_struct ? field->offset() : field->id()));
  say(of, "of", name_of(schema, field->type(), field->type()->base_type()));
  if (field->default_integer()) {
    bool wide = field->type()->base_type() == ULong;
    auto number = field->default_integer();
    say(of, "default", wide ? std::to_string(uint64_t(number)) : std::to_string(number));
  }
  if (field->optional() && field->type()->base_type() <= Double) say(of, "has", "null");
  if (field->required()) say(of, "has", "required");
  if (field->deprecated()) say(of, "has", "deprecated");
  if (field->key() && !in_struct) say(of, "has", "key");
}

static void say_enum(const Schema *schema, const Enum *declared) {
  auto name = declared->name()->str();
  auto base = declared->underlying_type()->base_type();
  if (!declared->is_union()) say(name, "of", scalars[base]);
  for (auto value : *declared->values()) {
    auto of = name + "." + value->name()->str();
    auto number = value->value();
    say(of, "is", base == ULong ? std::to_string(uint64_t(number)) : std::to_string(number));
    auto type = value->union_type();
    if (declared->is_union() && type->base_type() != None)
      say(of, "of", name_of(schema, type, type->base_type()));
  }
}

int main(int, char **words) {
  std::ifstream in(words[1], std::ios::binary);
  std::string bytes((std::istreambuf_iterator<char>(in)), {});
  auto schema = GetSchema(bytes.data());
  for (auto object : *schema->objects()) {
    auto name = object->name()->str();
    if (object->is_struct()) {
      say(name, "size", std::to_string(object->bytesize()));
      say(name, "align", std::to_string(object->minalign()));
    }
    for (auto field : *object->fields())
      say_field(schema, name + "." + field->name()->str(), object->is_struct(), field);
  }
  for (auto declared : *schema->enums()) say_enum(schema, declared);
  if (schema->root_table()) say("schema", "root", schema->root_table()->name()->str());
  if (schema->file_ident()->size()) say("schema", "identifier", schema->file_ident()->str());
  if (schema->file_ext()->size()) say("schema", "extension", schema->file_ext()->str());
}
