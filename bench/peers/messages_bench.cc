// The work of `bench request` and `bench answer` by libprotobuf: a message is made and encoded once, and then decoded
// and encoded in each round. Prints the line that `bench` prints.
#include <cstdint>
#include <cstdio>
#include <cstdlib>
#include <string>

#include "request_reply.pb.h"

namespace {

const char kPayload[] =
    "A letter that is long enough to be like the letters of a shop: an order, its lines and its price.";

void FillAddress(request_reply::Address* address, const char* name, uint32_t number) {
  address->set_namespace_("com.example");
  address->set_type(name);
  address->set_id("key-" + std::to_string(number));
}

void FillValue(request_reply::TypedValue* value) {
  value->set_typename_("io.statefun.types/string");
  value->set_has_value(true);
  value->set_value(kPayload);
}

request_reply::ToFunction Request(uint32_t count) {
  request_reply::ToFunction request;
  request_reply::InvocationBatchRequest* batch = request.mutable_invocation();
  FillAddress(batch->mutable_target(), "greeter", 0);
  for (uint32_t number = 0; number < count; ++number) {
    request_reply::BatchInvocation* invocation = batch->add_invocations();
    FillAddress(invocation->mutable_caller(), "sender", number);
    FillValue(invocation->mutable_argument());
  }
  return request;
}

request_reply::FromFunction Answer(uint32_t count) {
  request_reply::FromFunction answer;
  request_reply::InvocationResponse* result = answer.mutable_invocation_result();
  for (uint32_t number = 0; number < count; ++number) {
    request_reply::OutgoingInvocation* message = result->add_outgoing_messages();
    FillAddress(message->mutable_target(), "greeter", number);
    FillValue(message->mutable_argument());
  }
  return answer;
}

// Decodes and encodes in each round, each time into a new message and a new string. Gives the program's status.
template <typename Message>
int Work(const char* work, uint32_t count, uint32_t rounds, const Message& made) {
  std::string spelled;
  if (!made.SerializeToString(&spelled)) return 3;
  bool same = true;
  for (uint32_t round = 0; round < rounds; ++round) {
    Message read;
    std::string again;
    if (!read.ParseFromString(spelled) || !read.SerializeToString(&again)) return 3;
    same = same && again == spelled;
  }
  std::printf("%s %u %u bytes %zu same %s\n", work, count, rounds, spelled.size(), same ? "yes" : "no");
  return 0;
}

}  // namespace

int main(int argc, char** argv) {
  if (argc != 4) return 2;
  const std::string work = argv[1];
  const uint32_t count = std::strtoul(argv[2], nullptr, 10);
  const uint32_t rounds = std::strtoul(argv[3], nullptr, 10);
  if (work == "request") return Work("request", count, rounds, Request(count));
  if (work == "answer") return Work("answer", count, rounds, Answer(count));
  return 2;
}
