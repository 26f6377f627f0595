// Messages of pb.Node merged and copied over the C++ library: merges generated|dynamic merge|copy RUNS
//
// `merge` merges a million small nodes of one arena into a node of another one, and `copy` copies a tree of 100,001 nodes
// into another arena. It prints a sum of what the result holds, and the best time of so many runs in nanoseconds: that of
// making the arena that is copied into and of filling it, without the parsing of what is merged or copied.
// `generated` has the class that protoc makes, and `dynamic` the library's dynamic messages.
#include <google/protobuf/arena.h>
#include <google/protobuf/dynamic_message.h>

#include <chrono>
#include <cstdint>
#include <cstdio>
#include <cstdlib>
#include <string>

#include "pb.pb.h"

using google::protobuf::Arena;
using google::protobuf::FieldDescriptor;
using google::protobuf::Message;
using google::protobuf::Reflection;

namespace {

// So many small nodes as children, each with a name, a count and two marks, 18 bytes each.
void PutSmallNodes(std::string* out, uint32_t many) {
  for (uint32_t i = 0; i < many; i++) {
    const char low = static_cast<char>(i % 128), middle = static_cast<char>(i / 128 % 128), high = static_cast<char>(i / 16384);
    out->append("\x1a\x10\x0a\x06" "a name\x10", 11);
    for (char byte : {static_cast<char>(low + 128), static_cast<char>(middle + 128), high, '\x22', '\x02', low, middle}) out->push_back(byte);
  }
}

// A million small nodes; or a hundred children with 999 small nodes each.
std::string Payload(bool is_copy) {
  std::string payload;
  if (!is_copy) PutSmallNodes(&payload, 1000000);
  for (int i = 0; is_copy && i < 100; i++) {
    payload.append("\x1a\xbe\x8c\x01", 4);
    PutSmallNodes(&payload, 999);
  }
  return payload;
}

struct Type {
  google::protobuf::DynamicMessageFactory factory;
  const google::protobuf::Descriptor* type = pb::Node::descriptor();
  const Message* prototype;
  const Reflection* reflection;
  explicit Type(bool generated) {
    prototype = generated ? &pb::Node::default_instance() : factory.GetPrototype(type);
    reflection = prototype->GetReflection();
  }
};

uint64_t Sum(const Type& type, const Message& node) {
  const Reflection* r = type.reflection;
  const FieldDescriptor *count = type.type->FindFieldByNumber(2), *mark = type.type->FindFieldByNumber(4);
  uint64_t sum = static_cast<uint64_t>(r->GetInt64(node, count));
  for (int k = 0; k < r->FieldSize(node, mark); k++) sum += static_cast<uint32_t>(r->GetRepeatedInt32(node, mark, k));
  return sum;
}

uint64_t TreeSum(const Type& type, const Message& node) {
  const FieldDescriptor* child = type.type->FindFieldByNumber(3);
  uint64_t sum = Sum(type, node);
  for (int k = 0; k < type.reflection->FieldSize(node, child); k++) sum += TreeSum(type, type.reflection->GetRepeatedMessage(node, child, k));
  return sum;
}

// The calls of the classes that protoc makes, and those of any message.
void Merge(bool generated, Message* to, const Message& from) {
  if (generated) {
    static_cast<pb::Node*>(to)->MergeFrom(static_cast<const pb::Node&>(from));
  } else {
    to->MergeFrom(from);
  }
}

const Message& Child(const Type& type, const Message& from, const FieldDescriptor* child, bool generated, int i) {
  return generated ? static_cast<const pb::Node&>(from).child(i) : type.reflection->GetRepeatedMessage(from, child, i);
}

void Copy(bool generated, Message* to, const Message& from) {
  if (generated) {
    static_cast<pb::Node*>(to)->CopyFrom(static_cast<const pb::Node&>(from));
  } else {
    to->CopyFrom(from);
  }
}

}  // namespace

int main(int words, char** word) {
  if (words != 4) return 1;
  const bool generated = std::string(word[1]) == "generated";
  const std::string way = word[2];
  const Type type(generated);
  const FieldDescriptor* child = type.type->FindFieldByNumber(3);
  const std::string payload = Payload(way == "copy");
  uint64_t best = UINT64_MAX, sum = 0;
  for (int run = 0; run < std::atoi(word[3]); run++) {
    Arena theirs;
    Message* from = type.prototype->New(&theirs);
    if (!from->ParseFromString(payload)) return 1;
    const auto start = std::chrono::steady_clock::now();
    auto end = start;
    {
      Arena arena;
      Message* to = type.prototype->New(&arena);
      if (way == "copy") {
        Copy(generated, to, *from);
      } else {
        for (int i = 0; i < 1000000; i++) Merge(generated, to, Child(type, *from, child, generated, i));
      }
      end = std::chrono::steady_clock::now();
      sum = TreeSum(type, *to);
    }
    const auto nanos = std::chrono::duration_cast<std::chrono::nanoseconds>(end - start).count();
    if (static_cast<uint64_t>(nanos) < best) best = static_cast<uint64_t>(nanos);
  }
  std::printf("%llu %llu\n", static_cast<unsigned long long>(sum), static_cast<unsigned long long>(best));
  return 0;
}
