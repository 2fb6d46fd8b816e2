module List where

import Basics
import Maybe (Maybe(..))
import Control (class Functor, map, (<$>))

data List a = Nil | Cons a (List a)

infixr 6 Cons as :

instance functorList :: Functor List where
  map _ Nil = Nil
  map f (x : xs) = f x : map f xs

instance semigroupList :: Semigroup (List a) where
  append Nil ys = ys
  append (x : xs) ys = x : xs <> ys

instance monoidList :: Monoid (List a) where
  mempty = Nil

instance eqList :: Eq a => Eq (List a) where
  eq Nil Nil = true
  eq (x : xs) (y : ys) = x == y && xs == ys
  eq _ _ = false

instance showList :: Show a => Show (List a) where
  show xs = "[" <> go true xs <> "]"
    where
    go _ Nil = ""
    go first (y : ys) = separator <> show y <> go false ys
      where
      separator = if first then "" else ", "

foldr :: forall a b. (a -> b -> b) -> b -> List a -> b
foldr f z = go
  where
  go Nil = z
  go (x : xs) = f x (go xs)

foldl :: forall a b. (b -> a -> b) -> b -> List a -> b
foldl f z Nil = z
foldl f z (x : xs) = foldl f (f z x) xs

sum :: List Int -> Int
sum = foldl (_ + _) 0

product :: List Int -> Int
product = foldl (*) 1

length :: forall a. List a -> Int
length = foldl (\n _ -> n + 1) 0

filter :: forall a. (a -> Boolean) -> List a -> List a
filter keep = case _ of
  Nil -> Nil
  x : xs
    | keep x -> x : filter keep xs
    | otherwise -> filter keep xs

reverse :: forall a. List a -> List a
reverse = foldl (flip Cons) Nil

head :: forall a. List a -> Maybe a
head (x : _) = Just x
head Nil = Nothing

zipWith :: forall a b c. (a -> b -> c) -> List a -> List b -> List c
zipWith f (a : as) (b : bs) = f a b : zipWith f as bs
zipWith _ _ _ = Nil

range :: Int -> Int -> List Int
range low high = if high < low then Nil else low : range (low + 1) high

insert :: forall a. Ord a => a -> List a -> List a
insert a Nil = a : Nil
insert a whole@(b : bs) = case compare a b of
  GT -> b : insert a bs
  _ -> a : whole

sort :: forall a. Ord a => List a -> List a
sort = foldr insert Nil

all :: forall a. (a -> Boolean) -> List a -> Boolean
all p = foldr (\a b -> p a && b) true

elem :: forall a. Eq a => a -> List a -> Boolean
elem a xs = not (all (a /= _) xs)

doubled :: List Int
doubled = (_ * 2) <$> range 1 10
