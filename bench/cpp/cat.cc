// The same `cat` over the C++ library: cat generated|dynamic TYPE FRAMES WORKERS
//
// Reads a file of length-prefixed messages, parses each into one arena, on as many threads as there are workers, and
// writes each behind its prefix, in order. `generated` has the classes that protoc makes, `dynamic` the library's
// dynamic messages, whose schema is known at run time alone, as in the program beside which this is measured.
#include <fcntl.h>
#include <google/protobuf/arena.h>
#include <google/protobuf/dynamic_message.h>
#include <google/protobuf/io/coded_stream.h>
#include <google/protobuf/io/zero_copy_stream_impl.h>

#include <cstdio>
#include <cstdlib>
#include <cstring>
#include <fstream>
#include <string>
#include <string_view>
#include <thread>
#include <vector>

#include "pb.pb.h"

using google::protobuf::Arena;
using google::protobuf::Message;
using google::protobuf::io::CodedInputStream;
using google::protobuf::io::CodedOutputStream;
using google::protobuf::io::FileOutputStream;

namespace {

[[noreturn]] void Fail(const char* what) {
  std::fprintf(stderr, "cat: %s\n", what);
  std::exit(1);
}

std::string ReadFile(const char* name) {
  std::ifstream file(name, std::ios::binary | std::ios::ate);
  if (!file) Fail("the frames can't be read");
  std::string bytes(static_cast<size_t>(file.tellg()), '\0');
  file.seekg(0);
  file.read(bytes.data(), static_cast<std::streamsize>(bytes.size()));
  return bytes;
}

std::vector<std::string_view> Frames(const std::string& bytes) {
  std::vector<std::string_view> frames;
  const uint8_t* start = reinterpret_cast<const uint8_t*>(bytes.data());
  size_t at = 0;
  while (at < bytes.size()) {
    uint32_t length = 0;
    int shift = 0;
    for (; at < bytes.size() && shift < 35; shift += 7) {
      uint8_t byte = start[at++];
      length |= static_cast<uint32_t>(byte & 127) << shift;
      if (byte < 128) break;
    }
    if (length > bytes.size() - at) Fail("a frame is cut");
    frames.emplace_back(bytes.data() + at, length);
    at += length;
  }
  return frames;
}

// Every worker parses each frame whose index leaves its own number over the workers, into the one arena. T is the
// generated class, so that calls go to it outright, or the library's `Message`.
template <typename T, typename Make>
void Parse(const Make& make, Arena* arena, const std::vector<std::string_view>& frames, size_t first, size_t step,
           std::vector<T*>* messages) {
  for (size_t i = first; i < frames.size(); i += step) {
    T* message = make(arena);
    if (!message->ParseFromArray(frames[i].data(), static_cast<int>(frames[i].size()))) Fail("a frame has a fault");
    (*messages)[i] = message;
  }
}

template <typename T>
void Write(const std::vector<T*>& messages) {
  FileOutputStream file(1, 1 << 16);
  CodedOutputStream out(&file);
  for (const T* message : messages) {
    out.WriteVarint32(static_cast<uint32_t>(message->ByteSizeLong()));
    message->SerializeWithCachedSizes(&out);
  }
}

template <typename T, typename Make>
void Run(const Make& make, const char* name, size_t workers) {
  std::string bytes = ReadFile(name);
  std::vector<std::string_view> frames = Frames(bytes);
  std::vector<T*> messages(frames.size());
  Arena arena;
  std::vector<std::thread> others;
  for (size_t w = 1; w < workers; w++)
    others.emplace_back([&, w] { Parse<T>(make, &arena, frames, w, workers, &messages); });
  Parse<T>(make, &arena, frames, 0, workers, &messages);
  for (std::thread& other : others) other.join();
  Write(messages);
}

template <typename T>
void RunGenerated(const char* name, size_t workers) {
  Run<T>([](Arena* arena) { return Arena::CreateMessage<T>(arena); }, name, workers);
}

void RunDynamic(const std::string& type, const char* name, size_t workers) {
  pb::Tick::descriptor();
  const auto* found = google::protobuf::DescriptorPool::generated_pool()->FindMessageTypeByName(type);
  if (found == nullptr) Fail("no such type");
  google::protobuf::DynamicMessageFactory factory;
  const Message* prototype = factory.GetPrototype(found);
  Run<Message>([prototype](Arena* arena) { return prototype->New(arena); }, name, workers);
}

}  // namespace

int main(int count, char** words) {
  if (count != 5) Fail("usage: cat generated|dynamic TYPE FRAMES WORKERS");
  std::string way = words[1], type = words[2];
  size_t workers = std::strtoul(words[4], nullptr, 10);
  if (way == "dynamic")
    RunDynamic(type, words[3], workers);
  else if (way == "generated" && type == "pb.Tick")
    RunGenerated<pb::Tick>(words[3], workers);
  else if (way == "generated" && type == "pb.Node")
    RunGenerated<pb::Node>(words[3], workers);
  else
    Fail("neither dynamic nor a generated type");
  return 0;
}
