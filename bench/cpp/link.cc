// Links a descriptor set by the C++ library: link SET TYPE
//
// Reads the set that protoc wrote, builds each of its files in a pool, and looks the type up, as the program does before it
// reads a frames file.
#include <google/protobuf/descriptor.h>
#include <google/protobuf/descriptor.pb.h>

#include <cstdio>
#include <fstream>

int main(int count, char** words) {
  if (count != 3) {
    std::fprintf(stderr, "link SET TYPE\n");
    return 2;
  }
  std::ifstream file(words[1], std::ios::binary);
  google::protobuf::FileDescriptorSet set;
  if (!file || !set.ParseFromIstream(&file)) {
    std::fprintf(stderr, "link: the set can't be read\n");
    return 6;
  }
  google::protobuf::DescriptorPool pool;
  for (const auto& one : set.file()) {
    if (pool.BuildFile(one) == nullptr) {
      std::fprintf(stderr, "link: the set isn't taken\n");
      return 3;
    }
  }
  return pool.FindMessageTypeByName(words[2]) == nullptr ? 3 : 0;
}
