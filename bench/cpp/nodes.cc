// Messages of pb.Node made, changed and read over the C++ library: nodes generated|reflection LIVES EACH
//
// In each of so many arenas, one after the other, it makes so many nodes, sets each one's count twice and its name, appends
// four marks and reads all back; it prints the sum of what was read. `generated` has the class that protoc makes,
// `reflection` the library's dynamic messages through `Reflection`, with each field's descriptor found beforehand.
#include <google/protobuf/arena.h>
#include <google/protobuf/dynamic_message.h>

#include <cstdint>
#include <cstdio>
#include <cstdlib>
#include <string>

#include "pb.pb.h"

using google::protobuf::Arena;
using google::protobuf::FieldDescriptor;
using google::protobuf::Message;
using google::protobuf::Reflection;

namespace {

uint64_t Generated(uint32_t lives, uint32_t each) {
  uint64_t sum = 0;
  for (uint32_t life = 0; life < lives; life++) {
    Arena arena;
    for (uint32_t i = 0; i < each; i++) {
      pb::Node* node = Arena::CreateMessage<pb::Node>(&arena);
      node->set_count(i);
      node->set_count(i ^ 1);
      node->set_name("a name");
      for (uint32_t k = 0; k < 4; k++) node->add_mark(static_cast<int32_t>(i ^ k));
      sum += static_cast<uint64_t>(node->count()) + node->name().size();
      for (int k = 0; k < node->mark_size(); k++) sum += static_cast<uint32_t>(node->mark(k));
    }
  }
  return sum;
}

uint64_t Reflected(uint32_t lives, uint32_t each) {
  google::protobuf::DynamicMessageFactory factory;
  const auto* type = google::protobuf::DescriptorPool::generated_pool()->FindMessageTypeByName("pb.Node");
  const Message* prototype = factory.GetPrototype(type);
  const Reflection* reflection = prototype->GetReflection();
  const FieldDescriptor *count = type->FindFieldByNumber(2), *name = type->FindFieldByNumber(1), *mark = type->FindFieldByNumber(4);
  uint64_t sum = 0;
  std::string scratch;
  for (uint32_t life = 0; life < lives; life++) {
    Arena arena;
    for (uint32_t i = 0; i < each; i++) {
      Message* node = prototype->New(&arena);
      reflection->SetInt64(node, count, i);
      reflection->SetInt64(node, count, i ^ 1);
      reflection->SetString(node, name, "a name");
      for (uint32_t k = 0; k < 4; k++) reflection->AddInt32(node, mark, static_cast<int32_t>(i ^ k));
      sum += static_cast<uint64_t>(reflection->GetInt64(*node, count));
      sum += reflection->GetStringReference(*node, name, &scratch).size();
      const int marks = reflection->FieldSize(*node, mark);
      for (int k = 0; k < marks; k++) sum += static_cast<uint32_t>(reflection->GetRepeatedInt32(*node, mark, k));
    }
  }
  return sum;
}

}  // namespace

int main(int words, char** word) {
  pb::Node::descriptor();
  if (words != 4) return 1;
  const uint32_t lives = static_cast<uint32_t>(std::strtoul(word[2], nullptr, 10));
  const uint32_t each = static_cast<uint32_t>(std::strtoul(word[3], nullptr, 10));
  const uint64_t sum = std::string(word[1]) == "generated" ? Generated(lives, each) : Reflected(lives, each);
  std::printf("%llu\n", static_cast<unsigned long long>(sum));
  return 0;
}
