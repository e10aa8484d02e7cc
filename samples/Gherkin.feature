# 9 lines 6 code 2 comments 1 blanks
# for people who read

Feature: Greetings
  Scenario: one
    Given a name
      ```
      # none
      ```
