META
key;value
description;A hall
budget;6
vote_type;approval
PROJECTS
project_id;cost;name;selected
hall;5;Hall;1
dance;2;Dance;0
film;2;Film;0
VOTES
voter_id;vote
1;hall
2;hall,dance,film
3;hall,dance,film
