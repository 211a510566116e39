// An album read by its worker: here as a view and as a message, by C++ protobuf into a new message
// and into one that was used before, and by nanopb into a struct with room for all. Each worker
// answers the same sum, or there is nothing to count.
//
//   album INPUT WORKER ROUNDS       INPUT is short or long

#include "albums.nanopb.h"
#include "albums.pb.h"

#include <pb_decode.h>

#include <cstdio>
#include <cstdlib>
#include <cstring>
#include <string>

extern "C" {
uint64_t wb_album_decode(const uint8_t* bytes, size_t len, uint32_t rounds);
uint64_t wb_album_view(const uint8_t* bytes, size_t len, uint32_t rounds);
}

namespace {

albums::Album Short() {
  albums::Album album;
  album.set_released(1234567890123);
  album.set_title("disk usage of /");
  album.set_cover("0123456789abcdef");
  album.set_note("steady");
  for (int rating : {-3, 70, -700, 7000, 1, 2, 3, -4}) album.add_ratings(rating);
  for (const char* genre : {"root", "ssd", "eu-west"}) album.add_genres(genre);
  album.mutable_opening()->set_title("first");
  album.mutable_opening()->set_plays(5);
  for (const char* title : {"second", "third"}) {
    albums::Track* track = album.add_tracks();
    track->set_title(title);
    track->set_plays(70000);
  }
  return album;
}

// Mostly text and bytes.
albums::Album Long() {
  albums::Album album = Short();
  album.set_title(std::string(1000, 't'));
  album.set_cover(std::string(20000, '\x7f'));
  for (int genre = 0; genre < 100; genre++) album.add_genres(std::string(100, 'g'));
  return album;
}

uint64_t Sum(const albums::Album& album) {
  return 1 + album.released() + album.title().size() + album.cover().size() +
         album.ratings_size() + album.genres_size() + album.tracks_size();
}

uint64_t New(const std::string& bytes, uint32_t rounds) {
  uint64_t sum = 0;
  for (uint32_t round = 0; round < rounds; round++) {
    albums::Album album;
    if (!album.ParseFromString(bytes)) return 0;
    sum = Sum(album);
  }
  return sum;
}

uint64_t Used(const std::string& bytes, uint32_t rounds) {
  static albums::Album album;
  album.ParseFromString(bytes);
  uint64_t sum = 0;
  for (uint32_t round = 0; round < rounds; round++) {
    if (!album.ParseFromString(bytes)) return 0;
    sum = Sum(album);
  }
  return sum;
}

uint64_t Nanopb(const std::string& bytes, uint32_t rounds) {
  static albums_Album album;
  const uint8_t* data = reinterpret_cast<const uint8_t*>(bytes.data());
  uint64_t sum = 0;
  for (uint32_t round = 0; round < rounds; round++) {
    pb_istream_t stream = pb_istream_from_buffer(data, bytes.size());
    if (!pb_decode(&stream, albums_Album_fields, &album)) return 0;
    sum = 1 + album.released + std::strlen(album.title) + album.cover.size +
          album.ratings_count + album.genres_count + album.tracks_count;
  }
  return sum;
}

}  // namespace

int main(int count, char** words) {
  if (count != 4) return 2;
  std::string bytes, worker = words[2];
  (std::string(words[1]) == "short" ? Short() : Long()).SerializeToString(&bytes);
  const uint8_t* data = reinterpret_cast<const uint8_t*>(bytes.data());
  uint32_t rounds = static_cast<uint32_t>(std::atoi(words[3]));
  uint64_t sum = worker == "view"    ? wb_album_view(data, bytes.size(), rounds)
                 : worker == "message" ? wb_album_decode(data, bytes.size(), rounds)
                 : worker == "new"     ? New(bytes, rounds)
                 : worker == "used"    ? Used(bytes, rounds)
                                       : Nanopb(bytes, rounds);
  std::printf("%zu bytes: %llu\n", bytes.size(), static_cast<unsigned long long>(sum));
  return 0;
}
