#include "log/checkpoint_signer.h"

#include "base/pause.h"

#include <utility>

namespace gateway {

namespace {

using namespace std::chrono_literals;

// Between two looks, and between two signatures while entries come: together less than a second,
// with room for the signature and its file.
constexpr auto between_looks = 50ms;
constexpr auto at_least = 800ms;

// Between two signatures where none come.
constexpr auto at_most = 5s;

} // namespace

CheckpointSigner::CheckpointSigner(Log &log, Sealer sealer, CheckpointFile file, Checkpoint last,
                                   const std::vector<std::string> &send,
                                   std::shared_ptr<spdlog::logger> events)
    : log_(log), sealer_(std::move(sealer)), file_(std::move(file)), events_(std::move(events)),
      sender_(send.empty() ? nullptr : std::make_unique<CheckpointSender>(send, events_)),
      last_(last), thread_([this](const std::stop_token &stop) { run(stop); }) {}

void CheckpointSigner::run(const std::stop_token &stop) {
    try {
        while (!stop.stop_requested()) {
            if (is_due()) {
                sign(false);
            }
            pause_for(between_looks, stop);
        }
    } catch (const std::exception &) {
        // The log takes nothing any more, and has told it.
    }
}

bool CheckpointSigner::is_due() {
    const auto since = Clock::now() - signed_at_;
    return since >= at_most || (since >= at_least && log_.position() != last_.at);
}

void CheckpointSigner::sign(bool is_end) {
    signed_at_ = Clock::now();
    last_ = sealer_.sign({last_.number + 1, log_.position(), last_.signature, is_end, {}});
    log_.wait(log_.put_checkpoint(last_));
    keep(last_);
}

// The day goes on where it can't be kept, and the operator is told, of each cause once: what is
// lost is the sign that the end of the log was cut off.
void CheckpointSigner::keep(const Checkpoint &checkpoint) {
    if (sender_) {
        sender_->send(file_.text_of_file(checkpoint));
    }
    try {
        file_.write(checkpoint);
        told_.clear();
    } catch (const std::exception &fault) {
        if (told_ != fault.what()) {
            told_ = fault.what();
            events_->error("checkpoint is not kept cause=\"{}\"", told_);
        }
    }
}

void CheckpointSigner::end(bool is_end_of_day) {
    stop();
    sign(is_end_of_day);
}

void CheckpointSigner::stop() {
    if (thread_.joinable()) {
        thread_.request_stop();
        thread_.join();
    }
}

} // namespace gateway
