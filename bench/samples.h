// The values of each command in the journal. crates/bench/src/protocol/samples.rt has the same values, as payloads.
#pragma once

#include "records.pb.h"

#include <string>

namespace samples {

inline const std::string name = "the command";
inline const std::string person = "{\"name\": \"somebody\", \"age\": 77}";
inline const std::string idempotency_key = "0123456789abcdef";
constexpr uint64_t moment = 1700000000000;

template <typename M>
void add_headers(M& command, int count) {
    for (int i = 0; i < count; ++i) {
        hengomaru::Pair* header = command.add_headers();
        header->set_key("content-type");
        header->set_value("application/json");
    }
}

// A command with the name that all but the input have.
template <typename M>
M named() {
    M command;
    command.set_name(name);
    return command;
}

// A named command that is completed by this id.
template <typename M>
M completed(uint32_t id) {
    M command = named<M>();
    command.set_result_completion_id(id);
    return command;
}

// A named command about a key.
template <typename M>
M keyed(M command, const std::string& key) {
    command.set_key(key);
    return command;
}

inline hengomaru::InputCommand input() {
    hengomaru::InputCommand command;
    add_headers(command, 2);
    command.mutable_value()->set_content(person);
    return command;
}

inline hengomaru::OutputCommand output() {
    auto command = named<hengomaru::OutputCommand>();
    command.mutable_value()->set_content(person);
    return command;
}

inline hengomaru::SetStateCommand set_state() {
    auto command = keyed(named<hengomaru::SetStateCommand>(), "count");
    command.mutable_value()->set_content(person);
    return command;
}

inline hengomaru::GetEagerStateCommand get_eager_state() {
    auto command = keyed(named<hengomaru::GetEagerStateCommand>(), "count");
    command.mutable_value()->set_content(person);
    return command;
}

inline hengomaru::GetEagerStateKeysCommand get_eager_state_keys() {
    auto command = named<hengomaru::GetEagerStateKeysCommand>();
    for (const char* key : {"count", "name", "age"}) {
        command.mutable_value()->add_keys(key);
    }
    return command;
}

inline hengomaru::CompletePromiseCommand complete_promise() {
    auto command = keyed(completed<hengomaru::CompletePromiseCommand>(12), "done");
    hengomaru::Failure* failure = command.mutable_completion_failure();
    failure->set_code(409);
    failure->set_message("cancelled");
    hengomaru::Pair* pair = failure->add_metadata();
    pair->set_key("reason");
    pair->set_value("asked for");
    return command;
}

inline hengomaru::SleepCommand sleep() {
    auto command = completed<hengomaru::SleepCommand>(7);
    command.set_wake_up_time(moment);
    return command;
}

// What a call and a send have in common.
template <typename M>
M calling() {
    M command = keyed(named<M>(), "somebody");
    command.set_service_name("greeter");
    command.set_handler_name("greet");
    command.set_parameter(person);
    add_headers(command, 3);
    command.set_idempotency_key(idempotency_key);
    command.set_invocation_id_notification_idx(17);
    return command;
}

inline hengomaru::CallCommand call() {
    auto command = calling<hengomaru::CallCommand>();
    command.set_result_completion_id(18);
    return command;
}

inline hengomaru::OneWayCallCommand one_way_call() {
    auto command = calling<hengomaru::OneWayCallCommand>();
    command.set_invoke_time(moment);
    return command;
}

inline hengomaru::SendSignalCommand send_signal() {
    hengomaru::SendSignalCommand command;
    command.set_target_invocation_id("inv_1abcdefghijklmnop");
    command.set_idx(1);
    command.mutable_void_();
    command.set_entry_name(name);
    return command;
}

inline hengomaru::AttachInvocationCommand attach_invocation() {
    auto command = completed<hengomaru::AttachInvocationCommand>(14);
    hengomaru::WorkflowTarget* target = command.mutable_workflow_target();
    target->set_workflow_name("workflow");
    target->set_workflow_key("key");
    target->set_scope("scope");
    return command;
}

inline hengomaru::GetInvocationOutputCommand get_invocation_output() {
    auto command = completed<hengomaru::GetInvocationOutputCommand>(15);
    hengomaru::IdempotentRequestTarget* target = command.mutable_idempotent_request_target();
    target->set_service_name("greeter");
    target->set_service_key("somebody");
    target->set_handler_name("greet");
    target->set_idempotency_key(idempotency_key);
    return command;
}

inline hengomaru::CompleteAwakeableCommand complete_awakeable() {
    auto command = named<hengomaru::CompleteAwakeableCommand>();
    command.set_awakeable_id("sign_1aW52MQAAABE");
    command.mutable_value()->set_content(person);
    return command;
}

}  // namespace samples
