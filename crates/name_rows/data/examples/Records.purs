-- Records: reading, updating, rows that go on, and labels of every spelling.
module Records where

import Basics (class Eq, class Show, show, (<>), (==), (&&), (+))

type Point = { x :: Int, y :: Int }

type Named r = { name :: String | r }

type Person = Named ( age :: Int, address :: { street :: String, "house number" :: Int } )

newtype Wrapped r = Wrapped { | r }

origin :: Point
origin = { x: 0, y: 0 }

moveRight :: forall r. { x :: Int | r } -> { x :: Int | r }
moveRight p = p { x = p.x + 1 }

nameOf :: forall r. Named r -> String
nameOf = _.name

street :: Person -> String
street = _.address.street

birthday :: Person -> Person
birthday person@{ age } = person { age = age + 1 }

describe :: Person -> String
describe { name, age, address: { street: s, "house number": n } } =
  name <> ", " <> show age <> ", " <> s <> " " <> show n

moveHouse :: String -> Int -> Person -> Person
moveHouse s n p = p { address = p.address { street = s, "house number" = n } }

keywords :: { type :: Int, data :: Int, where :: Int }
keywords = { type: 1, data: 2, where: 3 }

sumOfKeywords :: Int
sumOfKeywords = keywords.type + keywords.data + keywords.where

swap :: forall a b. { first :: a, second :: b } -> { first :: b, second :: a }
swap { first, second } = { first: second, second: first }

samePoint :: Point -> Point -> Boolean
samePoint a b = a.x == b.x && a.y == b.y

functions :: { apply :: Int -> Int, twice :: (Int -> Int) -> Int -> Int }
functions =
  { apply: \n -> n + 1
  , twice: \f n -> f (f n)
  }

three :: Int
three = functions.twice functions.apply 1
