#!/usr/bin/env python3
"""Makes a stream of records that a book can accept out of a map file.

usage: derive.py citm|twitter MAP.json OUT.jsons

citm: the array of performances, byte for byte as it stands in the file. The rest of the file has objects whose keys are numbers.
twitter: one record for each tweet. No rule accepts an object of more than 15 pairs, so tweets and users get inner objects; all values stay.
"""
import json
import sys

# pairs of a tweet that go into an inner object
TWEET = {
    "reply": ["in_reply_to_status_id", "in_reply_to_status_id_str", "in_reply_to_user_id", "in_reply_to_user_id_str", "in_reply_to_screen_name"],
    "marks": ["truncated", "retweet_count", "favorite_count", "favorited", "retweeted", "possibly_sensitive"],
    "where": ["geo", "coordinates", "place"],
}
# the same for a user; those that begin with profile_ follow, without these letters
USER = {
    "counts": ["followers_count", "friends_count", "listed_count", "favourites_count", "statuses_count"],
    "flags": ["protected", "geo_enabled", "verified", "contributors_enabled", "is_translator", "is_translation_enabled", "default_profile",
              "default_profile_image", "following", "follow_request_sent", "notifications"],
}
PROFILE = "profile_"


def grouped(pairs, groups):
    """The pairs with those of each group in an inner object at the end."""
    inner = {key for keys in groups.values() for key in keys}
    made = {key: value for key, value in pairs.items() if key not in inner}
    for name, keys in groups.items():
        made[name] = {key: pairs[key] for key in keys if key in pairs}
    return made


def regrouped_user(user):
    made = grouped(user, USER)
    profile = {key[len(PROFILE):]: made.pop(key) for key in list(made) if key.startswith(PROFILE)}
    return {**made, "profile": profile}


def regrouped_tweet(tweet):
    made = grouped(tweet, TWEET)
    made["user"] = regrouped_user(tweet["user"])
    if "retweeted_status" in tweet:
        made["retweeted_status"] = regrouped_tweet(tweet["retweeted_status"])
    return made


def citm(text):
    begin = text.index("[", text.index('"performances"'))
    _, end = json.JSONDecoder().raw_decode(text, begin)
    return [text[begin:end]]


def twitter(text):
    return [json.dumps(regrouped_tweet(tweet), ensure_ascii=False, indent=2) for tweet in json.loads(text)["statuses"]]


def main():
    if len(sys.argv) != 4 or sys.argv[1] not in ("citm", "twitter"):
        sys.exit(__doc__)
    with open(sys.argv[2], encoding="utf-8") as file:
        text = file.read()
    texts = citm(text) if sys.argv[1] == "citm" else twitter(text)
    with open(sys.argv[3], "w", encoding="utf-8", newline="\n") as file:
        file.writelines("\x1e" + record + "\n" for record in texts)


if __name__ == "__main__":
    main()
